#!/usr/bin/env python3
"""Runs `replay`, `rehearse` and `inspect` of the built program on worked inputs, and compares what they print.

The inputs of `replay` are in cases/takes.py, cases/orders.py, cases/faults.py and cases/frames.py, those of
`rehearse` in cases/rehearsals.py, and the files of `inspect` in cases/inspections.py. Other inputs and outputs
give or take a part at a time, or fail. The program is the first argument, or the one of this repository. Prints what
differs, and last 'N passed, M failed'.
"""
import contextlib
import fcntl
import os
import resource
import signal
import socket
import struct
import subprocess
import sys
import termios
import time

sys.dont_write_bytecode = True  # nothing is left beside this script
from cases import faults as cases_of_faults
from cases import frames as cases_of_frames
from cases import inspections as cases_of_inspections
from cases import orders as cases_of_orders
from cases import rehearsals as cases_of_rehearsals
from cases import takes as cases_of_takes
from kit.hints import hinted
from kit.processes import end_after
from kit.repository import program
from kit.tally import difference, Tally
from kit.worked import BLOCK, CLOSE, EXCHANGE, OPEN, Case, SMALL_FILE, stored

LONGEST_RUN = 20  # seconds, for one run
LONGEST = 300  # seconds, for all of them
TALLY = Tally()
UNREADABLE = b"the input can't be read\n"
UNWRITABLE = b"the output can't be written\n"

SMALL_TAKE = Case("a take of two frames", OPEN + BLOCK + CLOSE + "\n", [EXCHANGE, *stored(0, 1, 2)], [SMALL_FILE])


def run(*words, **how):
    """The status of a run, and what it printed on each stream that isn't redirected."""
    streams = {"stdout": subprocess.PIPE, "stderr": subprocess.PIPE, **how}
    ran = subprocess.run([PROGRAM, *words], timeout=LONGEST_RUN, **streams)
    return ran.returncode, ran.stdout, ran.stderr


def same_run(name, found, *wanted):
    """Compares the status and both streams of a run; they count as one."""
    parts = zip(("status", "output", "standard error"), found, wanted)
    wrong = [f"{part}: {difference(one, other)}" for part, one, other in parts if one != other]
    TALLY.holds(name, not wrong, "; ".join(wrong))


# Inputs of `replay` and `rehearse`


def same_cases(fact, cases, *words):
    for case in cases:
        found = run(*words, *case.options, input=case.given.encode())
        same_run(f"{fact}: {case.of}", found, 0, case.text(), b"")


def case_worked(_folder):
    for module in (cases_of_takes, cases_of_orders, cases_of_faults, cases_of_frames):
        for fact, cases in module.CASES.items():
            same_cases(fact, cases, "replay")


def case_rehearsals(_folder):
    for fact, cases in cases_of_rehearsals.CASES.items():
        same_cases(fact, cases, "rehearse", "--name", "a1")


def case_not_hex(_folder):
    """The first line that isn't hex is reported before anything is run."""
    for given, line in cases_of_orders.NOT_HEX:
        found = run("replay", input=given.encode())
        same_run(f"not hex: {given!r}", found, 1, b"", f"line {line}: not hex\n".encode())


# Inputs that come in pieces, or break off


def given_in_pieces(given, size, breaks_off):
    """A socket that gives at most this many bytes a read, until the input ends or a read fails."""
    ours, theirs = socket.socketpair()
    if breaks_off:
        theirs.send(b"-")  # a byte that isn't read when `ours` is closed makes the last read of `theirs` fail
    with ours, open(os.devnull, "rb") as handle:
        for place in range(0, len(given), size):
            socket.send_fds(ours, [given[place : place + size]], [handle.fileno()])  # no read goes past a handle
    return theirs


def case_reads(_folder):
    """Of 117 bytes, forty at a time, a read fails after none, one, two and all three pieces; or none fails."""
    given = SMALL_TAKE.given.encode()
    for pieces in range(4):
        with given_in_pieces(given[: 40 * pieces], 40, True) as source:
            same_run(f"a read that fails after {pieces} pieces", run("replay", stdin=source), 3, b"", UNREADABLE)
    with given_in_pieces(given, 40, False) as source:
        same_run("an input in three pieces", run("replay", stdin=source), 0, SMALL_TAKE.text(), b"")


# Outputs that take a part, or fail


@contextlib.contextmanager
def room_in_files(size):
    """Limits the files that a child writes, if started meanwhile, to this many bytes; a write past them fails."""
    old, most = resource.getrlimit(resource.RLIMIT_FSIZE)
    resource.setrlimit(resource.RLIMIT_FSIZE, (size, most))
    try:
        yield
    finally:
        resource.setrlimit(resource.RLIMIT_FSIZE, (old, most))


def run_with_room(path, size, stream, *words, given):
    """A run of which one stream goes to a file with room for this many bytes; the result has what the file holds."""
    with open(path, "wb") as file, room_in_files(size):
        # SIGXFSZ stays ignored in the child, as it is in Python: so the write fails, and doesn't end the child
        status, out, faults = run(*words, input=given, restore_signals=False, **{stream: file})
    held = path.read_bytes()
    return (status, held, faults) if stream == "stdout" else (status, out, held)


def case_writes(folder):
    """An output takes a part of 1,522 bytes at the first write and fails at the second, or takes all."""
    given, text = SMALL_TAKE.given.encode(), SMALL_TAKE.text()
    for room in (0, 400, 800, 1_200, 1_521):
        found = run_with_room(folder / "out", room, "stdout", "replay", given=given)
        same_run(f"an output of {room} bytes", found, 3, text[:room], UNWRITABLE)
    found = run_with_room(folder / "out", 1_522, "stdout", "replay", given=given)
    same_run("an output of 1,522 bytes", found, 0, text, b"")


def wait_for(process, pipe, is_enough):
    """Waits until a pipe holds enough bytes, or the process has ended."""
    until = time.monotonic() + LONGEST_RUN
    while not is_enough(struct.unpack("i", fcntl.ioctl(pipe, termios.FIONREAD, bytes(4)))[0]):
        if process.poll() is not None:
            return
        if time.monotonic() > until:
            raise TimeoutError("a pipe is neither filled nor emptied")
        os.sched_yield()


def interrupt(process):
    """Stops and continues a process, so that the system call that it is in ends early."""
    process.send_signal(signal.SIGSTOP)
    os.waitid(os.P_PID, process.pid, os.WSTOPPED)
    process.send_signal(signal.SIGCONT)


def run_interrupted(source):
    """A replay whose first write is interrupted after a part, when a pipe of one page is full."""
    out, into = os.pipe()
    fcntl.fcntl(into, fcntl.F_SETPIPE_SZ, 4_096)
    with open(out, "rb") as text:
        process = subprocess.Popen([PROGRAM, "replay"], stdin=source, stdout=into, stderr=subprocess.PIPE)
        os.close(into)
        with process:
            try:
                wait_for(process, out, lambda count: count >= 4_096)
                interrupt(process)
                found, faults = text.read(), process.stderr.read()
                return process.wait(LONGEST_RUN), found, faults
            finally:
                process.kill()


def case_interrupted_write(folder):
    """The part that a write leaves over is written by the next ones."""
    case = next(case for case in cases_of_takes.LONGEST_BLOCKS if len(case.text()) > 4_096)
    (folder / "in").write_text(case.given)
    with open(folder / "in", "rb") as source:
        same_run("a write that takes a part", run_interrupted(source), 0, case.text(), b"")


def case_faults(folder):
    """The status is the same if the line of a fault can't be written."""
    found = run_with_room(folder / "faults", 0, "stderr", "replay", given=b"zz")
    same_run("a fault of replay without room", found, 1, b"", b"")
    found = run_with_room(folder / "faults", 7, "stderr", "inspect", "/dev/stdin", given=b"RIFX")
    same_run("a fault of inspect with room for a part", found, 1, b"", b"inspect")


# Files of `inspect`


def same_inspections(folder, of, file, *wanted):
    """Compares the inspection of a file with a seek in it, and through a pipe."""
    path = folder / "file"
    path.write_bytes(file)
    same_run(f"inspect of {of}", run("inspect", str(path)), *wanted)
    same_run(f"inspect of {of}, through a pipe", run("inspect", "/dev/stdin", input=file), *wanted)


def case_inspections(folder):
    """Reports of worked files, and the first fault of files that are cut off at each byte, or changed."""
    for of, file, text in cases_of_inspections.REPORTS:
        same_inspections(folder, of, file, 0, text.encode(), b"")
    for of, file, fault in cases_of_inspections.FAULTS:
        same_inspections(folder, of, file, 1, b"", hinted("inspect", fault).encode())


def inspect_in_pieces(file, size):
    """An inspection of a pipe that never holds more than this many bytes."""
    out, into = os.pipe()
    pipes = {"stdin": out, "stdout": subprocess.PIPE, "stderr": subprocess.PIPE}
    with subprocess.Popen([PROGRAM, "inspect", "/dev/stdin"], **pipes) as process:
        os.close(out)
        with open(into, "wb", buffering=0) as pipe, contextlib.suppress(BrokenPipeError):
            for place in range(0, len(file), size):
                pipe.write(file[place : place + size])
                wait_for(process, pipe, lambda count: count == 0)
        found, faults = process.communicate(timeout=LONGEST_RUN)
        return process.returncode, found, faults


def case_inspections_in_pieces(_folder):
    for of, file, status, text, faults in cases_of_inspections.IN_PIECES:
        for size in (1, 7, 65_536):
            found = inspect_in_pieces(file, size)
            same_run(f"inspect of {of} in pieces of {size}", found, status, text.encode(), faults.encode())


def case_report(folder):
    """A report is written where there is room for its first line, or for a part of the third."""
    for file, text, room in (
        (cases_of_inspections.SMALL_FILE, cases_of_inspections.RIFF_TEXT, 14),
        (cases_of_inspections.RF64, cases_of_inspections.RF64_TEXT, 40),
    ):
        found = run_with_room(folder / "out", room, "stdout", "inspect", "/dev/stdin", given=file)
        same_run(f"a report with room for {room} bytes", found, 3, text[:room].encode(), UNWRITABLE)


CASES = [
    case_worked,
    case_rehearsals,
    case_not_hex,
    case_reads,
    case_writes,
    case_interrupted_write,
    case_faults,
    case_inspections,
    case_inspections_in_pieces,
    case_report,
]


def main():
    end_after(LONGEST)
    for case in CASES:
        TALLY.try_case(case, (OSError, ValueError, subprocess.SubprocessError))
    return TALLY.end()


PROGRAM = program(sys.argv[1:])
sys.exit(main())
