#!/usr/bin/env python3
"""Runs the built program on made-up input, right, nearly right and broken, and checks what the documents say.

    tests/test_malformed.py [--seed N] [--cases N] [--seconds N] [--only CASE] [PROGRAM]

Each case depends on the seed and its number alone. By default there are 100000 cases, in at most 600 seconds; PROGRAM
is the one of this repository if it isn't given. `--only CASE` runs that case again alone, and then with its batch if it
shows no fault alone. Prints each fault with the seed and the number of its case, and last 'N cases, M faults'; the
status is 1 if there are faults.

Of a hundred cases there are about

- 28 turns: up to three takes interleaved, messages of all kinds, right and wrong, with repeats, reordering, gaps, asks,
  other bodies under a number that is taken, and numbers that are too far, split into exchanges at random;
- 20 cut: the same, with exchanges that end inside a frame, which the next one sends again;
- 20 garbage: the same, with exchanges that end in a bad frame of each reason, or in any bytes, and frames after it;
- 20 file: the file of a take as `replay` prints it, whole and then cut, longer, with other bytes or one more chunk;
- 7 chunks: a RIFF, BW64 or RF64 file of any chunks, right or with one fault of the table in docs/FORMATS.md;
- 2 rehearsal: events of `rehearse`, with lines that are no event;
- 2 words: command lines of any words, with help at any place, and in other orders;
- 1 lines: input of `replay` that isn't hex, or is in another spelling;
- and in a thousand, two names: more names than a server takes.

Of the first four kinds up to 64 cases are one batch, whose messages go through four runs of `replay`. The first has
the messages that count of each take in order: the verdicts must be possible in their places, and the file what the
stored requests make. The second has the exchanges of the case: replies, ends and files must be those of the messages
that are whole, with the verdicts of the first. The third has the input of the first twice, while one call of the store
fails, and the fourth has it with another limit: verdicts and files must be the same, but for the header of a longer
one. `inspect` must report of a file just what the stored requests say; every fourth file of the first three kinds is
inspected.
"""
import argparse
import multiprocessing
import pathlib
import resource
import signal
import sys
import tempfile
import time

sys.dont_write_bytecode = True  # nothing is left beside this script
from made_up import checked_runs
from made_up.batches import run_batch
from kit.processes import end_after
from kit.repository import program

BATCH = 64
MOST_MEMORY = 1 << 29  # bytes, for each worker and each run of the program
MOST_OUTPUT = 1 << 26  # bytes, of a run
WORKERS = 2
LONGEST_LINE = 1_000


def begin_worker(tried):
    """A worker is ended by the script alone, and ends what it runs; that has the same bounds of memory and output."""
    checked_runs.PROGRAM = tried
    for number in (signal.SIGINT, signal.SIGHUP, signal.SIGALRM):
        signal.signal(number, signal.SIG_IGN)
    signal.signal(signal.SIGTERM, lambda _number, _frame: sys.exit(1))
    resource.setrlimit(resource.RLIMIT_AS, (MOST_MEMORY, MOST_MEMORY))
    resource.setrlimit(resource.RLIMIT_FSIZE, (MOST_OUTPUT, MOST_OUTPUT))


def work(job):
    """The cases of a batch and its faults, or nothing if the time is up."""
    seed, numbers, folder, until = job
    if time.monotonic() > until:
        return 0, []
    with tempfile.TemporaryDirectory(dir=folder) as own:
        return len(numbers), run_batch(seed, numbers, pathlib.Path(own))


def batch_of(number, most):
    first = number - number % BATCH
    return range(first, min(first + BATCH, most))


def run_all(options, pool, folder):
    """How many cases were run, and how many showed a fault."""
    until = time.monotonic() + options.seconds
    starts = range(0, options.cases, BATCH)
    jobs = ((options.seed, batch_of(first, options.cases), folder, until) for first in starts)
    count = faulty = 0
    for cases, faults in pool.imap(work, jobs):
        count += cases
        faulty += print_faults(options.seed, faults)
    return count, faulty


def run_one(options, pool, folder):
    """The case alone; if it shows nothing alone, the cases that it was run with."""
    until, count = time.monotonic() + options.seconds, 0
    for numbers in ([options.only], batch_of(options.only, options.only + BATCH)):
        cases, faults = pool.apply(work, ((options.seed, numbers, folder, until),))
        count = max(count, min(cases, 1))
        faulty = print_faults(options.seed, [fault for fault in faults if fault[0] == options.only])
        if faulty:
            break
    return count, faulty


def print_faults(seed, faults):
    for number, text in faults:
        print(f"seed {seed} case {number}: {text[:LONGEST_LINE]}", flush=True)
    return len(faults)


def options_given():
    parser = argparse.ArgumentParser(description=__doc__, formatter_class=argparse.RawDescriptionHelpFormatter)
    parser.add_argument("--seed", type=int, default=1)
    parser.add_argument("--cases", type=int, default=100_000)
    parser.add_argument("--seconds", type=float, default=600)
    parser.add_argument("--only", type=int, metavar="CASE")
    parser.add_argument("program", nargs="?", metavar="PROGRAM")
    return parser.parse_args()


def main():
    options = options_given()
    end_after(int(options.seconds) + 5 * checked_runs.LONGEST_WAIT)
    tried = program([options.program] if options.program else [])
    with tempfile.TemporaryDirectory() as folder:
        with multiprocessing.Pool(WORKERS, begin_worker, (tried,)) as pool:
            run_them = run_all if options.only is None else run_one
            count, faulty = run_them(options, pool, folder)
            pool.close()  # the workers end by themselves: one that is about to wait could miss a signal
            pool.join()
    print(f"{count} cases, {faulty} faults")
    return 0 if count and not faulty else 1


if __name__ == "__main__":
    sys.exit(main())
