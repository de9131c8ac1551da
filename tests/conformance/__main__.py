"""Tries whether a server or a sender speaks docs/FORMATS.md.

  python3 tests/conformance --server HOST:PORT [--folder DIR] [--limit N] [--fresh]
  python3 tests/conformance --sender 'COMMAND {addr} {name} {file}'

A server gets the cases of vectors.txt, and takes over links that break. With --folder its files are compared byte for
byte; --limit is its greatest RIFF form; --fresh says that it knows no name yet. Each run has new names.

A sender's COMMAND is run in each case. It sends the WAV file {file}, or its samples {raw} (48000,1,24), as the take
{name} to {addr} or {host} {port}, and ends with 0 only if all is stored.

--only TEXT picks cases by name, --seed N changes links, --wait SECONDS is for a reply, or a run of a sender.

Prints a line for each case, with its rule of FORMATS, and last 'N passed, M failed'; the status is 0 where M is 0.
"""
import argparse
import pathlib
import sys
from concurrent.futures import ThreadPoolExecutor

sys.dont_write_bytecode = True  # nothing is left beside this script
from cases_of_senders import cases_of_senders
from cases_of_servers import cases_of_servers
from links import address_of, Failed, Skipped
from senders import Sender
from servers import Server
from takes import LARGEST_LIMIT

LANES = 10  # runs of a sender at once; a server gets one case after another


def arguments():
    plain = argparse.RawDescriptionHelpFormatter
    parser = argparse.ArgumentParser("conformance", usage=argparse.SUPPRESS, description=__doc__, formatter_class=plain)
    parser.add_argument("--server", type=address_of, help=argparse.SUPPRESS)
    parser.add_argument("--sender", help=argparse.SUPPRESS)
    parser.add_argument("--folder", type=pathlib.Path, help=argparse.SUPPRESS)
    parser.add_argument("--limit", type=int, default=LARGEST_LIMIT, help=argparse.SUPPRESS)
    parser.add_argument("--fresh", action="store_true", help=argparse.SUPPRESS)
    parser.add_argument("--only", default="", help=argparse.SUPPRESS)
    parser.add_argument("--seed", type=int, default=1, help=argparse.SUPPRESS)
    parser.add_argument("--wait", type=float, help=argparse.SUPPRESS)
    given = parser.parse_args()
    if bool(given.server) == bool(given.sender):
        parser.error("either --server or --sender is needed")
    return given


def outcome(case):
    """How a case ends: in a word, and why it failed or wasn't tried."""
    try:
        case.run()
    except Skipped as fault:
        return "skipped", str(fault)
    except (Failed, OSError) as fault:
        return "failed", str(fault) or type(fault).__name__
    return "passed", ""


def main():
    given = arguments()
    if given.server:
        server = Server(given.server, given.folder, given.limit, given.fresh, given.wait or 10, given.seed)
        cases = cases_of_servers(server)
    else:
        cases = cases_of_senders(Sender(given.sender, given.wait or 60))
    chosen = [case for case in cases if given.only in case.name]
    if not chosen:
        print(f"no case has {given.only!r} in its name", file=sys.stderr)
        return 2
    counts = {"passed": 0, "failed": 0, "skipped": 0}
    with ThreadPoolExecutor(LANES) as pool:
        run_all = map if given.server else pool.map
        for case, (how, why) in zip(chosen, run_all(outcome, chosen)):
            counts[how] += 1
            print(f"{how} {case.name} ({case.rule}){why and ': '}{why}", flush=True)
    print(f"{counts['passed']} passed, {counts['failed']} failed")
    return int(counts["failed"] > 0)


if __name__ == "__main__":
    sys.exit(main())
