#!/usr/bin/env python3
"""Runs tests/conformance on `serve` and `send` of the built program, and on servers and senders in Python.

The program passes. So do a server and a sender of wrong_servers.py and wrong_senders.py; and each of their kinds that
does one thing wrong is caught by the case that is named with it. Rules are named by headings of docs/FORMATS.md. The
program is the first argument, or the one of this repository. Prints what differs, and last 'N passed, M failed'.
"""
import contextlib
import shlex
import subprocess
import sys
from concurrent.futures import ThreadPoolExecutor

sys.dont_write_bytecode = True  # nothing is left beside this script
from kit.network import LEAST_LIMIT, LOCAL, PROGRAM, run_cases, Server, TALLY
from kit.repository import ROOT

CONFORMANCE = ROOT / "tests" / "conformance"
sys.path.append(str(CONFORMANCE))
from cases import wrong_senders
from cases.wrong_senders import PythonSender, WRONG_SENDERS
from cases.wrong_servers import PythonServer, WRONG_SERVERS
from cases_of_senders import cases_of_senders
from cases_of_servers import cases_of_servers
from servers import Server as Tried

LONGEST_RUN = 170  # seconds, for all of it
LONGEST_TRY = 120  # seconds, for one of them
AT_ONCE = 8  # runs of the conformance program


def tried(*words):
    """The status of a run of the conformance program, and its lines."""
    words = (sys.executable, "-B", str(CONFORMANCE), *words)
    try:
        done = subprocess.run(words, stdout=subprocess.PIPE, stderr=subprocess.STDOUT, text=True, timeout=LONGEST_TRY)
    except subprocess.TimeoutExpired:
        return None, [f"it doesn't end in {LONGEST_TRY} s"]
    return done.returncode, done.stdout.splitlines()


def try_server(port, folder, *options):
    return tried("--server", f"{LOCAL}:{port}", "--folder", str(folder), *options)


def try_sender(command, *options):
    return tried("--sender", command, *options)


def command_of(kind):
    """The command of a sender in Python."""
    words = (sys.executable, "-B", wrong_senders.__file__, kind.__name__)
    return shlex.join(words) + " {addr} {name} {file}"


def folder_in(folder, name):
    inner = folder / name
    inner.mkdir()
    return inner


def passes(name, result, skipped="nothing"):
    """Each case is passed, but for those that are skipped for this."""
    status, lines = result
    others = [line for line in lines[:-1] if not line.startswith("passed ")]
    odd = [line for line in others if not (line.startswith("skipped ") and skipped in line)]
    count = len(lines) - 1 - len(others)
    TALLY.same(f"{name}: cases that aren't passed", odd, [])
    TALLY.same(f"{name}: the end", (status, lines[-1:]), (0, [f"{count} passed, 0 failed"]))


def is_caught(kind, case, result):
    """The case of this name fails, and so does the run."""
    status, lines = result
    is_so = status == 1 and any(line.startswith(f"failed {case} (") for line in lines)
    TALLY.holds(f"{kind.__name__}: {case}", is_so, "\n".join(lines))


@contextlib.contextmanager
def serving(folder, *options, opening=()):
    """The port of a server of the program, which is stopped at the end."""
    server = Server(folder, "--until-stopped", *options, opening=opening)
    yield server.port
    server.stop()


def program_serves(folder):
    with serving(folder) as port:
        return try_server(port, folder, "--fresh")


def program_serves_many(folder):
    """Many at once, with a journal, and files that soon are BW64."""
    limit = ("--limit", str(LEAST_LIMIT))
    with serving(folder, "--recorders", "4", "--journal", *limit, opening=("resumed 0 takes",)) as port:
        return try_server(port, folder, "--fresh", *limit)


def program_sends(_folder):
    return try_sender(shlex.quote(PROGRAM) + " send --connect {addr} --name {name} --file {file}")


def python_serves(folder):
    return try_server(PythonServer(folder).port, folder, "--fresh")


def python_serves_elsewhere(folder):
    """Without its folder, as if it were on another machine."""
    return tried("--server", f"{LOCAL}:{PythonServer(folder).port}", "--only", "file")


def python_sends(_folder):
    return try_sender(command_of(PythonSender))


RIGHT = (
    (program_sends, "nothing"),
    (program_serves, f"without --limit {LEAST_LIMIT}"),
    (program_serves_many, "without --limit 4294967294"),
    (python_serves, f"without --limit {LEAST_LIMIT}"),
    (python_serves_elsewhere, "without --folder"),
    (python_sends, "nothing"),
)


def case_all(folder):
    """What speaks docs/FORMATS.md passes; what does one thing wrong is caught by its case."""
    with ThreadPoolExecutor(AT_ONCE) as pool:
        right = [pool.submit(run, folder_in(folder, run.__name__)) for run, _ in RIGHT]
        servers = [pool.submit(wrong_server, folder, *row) for row in WRONG_SERVERS]
        senders = [pool.submit(try_sender, command_of(kind), "--only", case) for kind, case in WRONG_SENDERS]
        for (run, skipped), result in zip(RIGHT, right):
            passes(run.__name__.replace("_", " "), result.result(), skipped)
        for (kind, case), result in zip(WRONG_SERVERS + WRONG_SENDERS, servers + senders):
            is_caught(kind, case, result.result())


def wrong_server(folder, kind, case):
    place = folder_in(folder, kind.__name__)
    return try_server(PythonServer(place, kind).port, place, "--only", case)


def case_rules(_folder):
    """Each rule begins with a heading of docs/FORMATS.md."""
    text = (ROOT / "docs" / "FORMATS.md").read_text()
    headings = tuple(line.lstrip("# ") for line in text.splitlines() if line.startswith("#"))
    rules = {case.rule for case in cases_of_servers(Tried((LOCAL, 0))) + cases_of_senders(None)}
    odd = [rule for rule in rules if not any(it.startswith(rule.partition(":")[0]) for it in headings)]
    TALLY.same("rules without a heading", odd, [])


CASES = [case_rules, case_all]

if __name__ == "__main__":
    sys.exit(run_cases(CASES, LONGEST_RUN))
