#!/usr/bin/env python3
"""Starts ./bwingest in copies of this repository, without the toolchain, a compiler or python3 on the PATH.

The program in release/ must start at once if it was built from the sources as they are. If anything that it was
built from has changed it must not start, and `./bwingest` says why, and that it needs the toolchain to build another.
Needs the tools of a POSIX system. Takes no argument. Prints what differs, and last 'N passed, M failed'.
"""
import contextlib
import hashlib
import os
import pathlib
import platform
import shutil
import subprocess
import sys
import tempfile
import time

sys.dont_write_bytecode = True  # nothing is left beside this script
from kit.processes import seconds_of_children
from kit.repository import ROOT
from kit.tally import Tally

TOOLS = "sh awk cat cmp cp cut dirname env find mkdir mv printf readlink rm sed sha256sum sort uname xargs".split()
LONGEST_START = 1.0  # processor seconds, since others may use the machine too
LONGEST_NEXT_START = 0.2  # where no file has changed, so that nothing is digested
SETTLED = 2.5  # seconds after a change from which a start is noted
BUILD_FAILED = 125
NO_TOOLCHAIN = "rt is not on the PATH"
ELF_MACHINE = 18  # the place of the two bytes that name a program's processor
TALLY = Tally()


def tools_in(folder, *more):
    """A folder with these tools alone, for the PATH."""
    folder.mkdir()
    for name in (*TOOLS, *more):
        (folder / name).symlink_to(shutil.which(name))
    return folder


def copy_to(folder):
    left_out = shutil.ignore_patterns("out", ".git", "must-fail", "wrong-bodies")
    return pathlib.Path(shutil.copytree(ROOT, folder, ignore=left_out, symlinks=True))


def started(program, path, *words, **more):
    """Starts a program; its status, standard output and standard error, and the processor seconds that it took."""
    before = seconds_of_children()
    with open(ROOT / "examples/a1.hex") as given:
        how = {"stdin": given, "capture_output": True, "text": True, "cwd": "/", "timeout": 60}
        ran = subprocess.run([program, *words], env={"PATH": str(path), **more}, **how)
    return ran.returncode, ran.stdout, ran.stderr, seconds_of_children() - before


@contextlib.contextmanager
def changed(path, change):
    """Changes a file of the copy for a while."""
    kept = path.read_bytes()
    path.write_bytes(change(kept))
    try:
        yield
    finally:
        path.write_bytes(kept)


def starts_at_once(name, program, path):
    status, out, faults, seconds = started(program, path, "replay")
    wanted = (ROOT / "examples/a1.txt").read_text()
    TALLY.same(name, (status, out, faults), (0, wanted, ""))
    TALLY.holds(name, seconds < LONGEST_START, f"it took {seconds:.2f} s")


def builds(name, program, path, why, **more):
    """It says why the program of release/ isn't run, and that there is no toolchain to build another."""
    status, out, faults, _ = started(program, path, "--version", **more)
    TALLY.same(name, (status, out), (BUILD_FAILED, ""))
    first = faults.partition("\n")[0]
    TALLY.holds(name, why in first, f"its first line doesn't say '{why}': {faults}")
    TALLY.holds(name, NO_TOOLCHAIN in faults, f"it doesn't say '{NO_TOOLCHAIN}': {faults}")


def one_more_line(content):
    return content + b"\n"


def other_byte(content):
    return content[:-1] + bytes([content[-1] ^ 1])


def try_changes(copy, path):
    """Each kind of file that the program is built from, and some that it isn't built from."""
    program = copy / "bwingest"
    for name in ("src/lib.rt", "specs/Lib.antt", "proofs/Lib.antt"):
        with changed(copy / "crates/bw_layout" / name, one_more_line):
            builds(f"another {name}", program, path, "was built from other sources")
    edge = lambda content: content.replace(b"bw_take: bw_model", b"bw_take: bw_stream bw_model")
    with changed(copy / "crates.txt", edge):
        builds("one more edge in crates.txt", program, path, "was built from other sources")
    with changed(copy / "release/SOURCES", lambda content: content.replace(b"toolchain: ", b"toolchain: another ")):
        builds("another toolchain", program, path, "was built from other sources")
    with changed(copy / "release/bwingest", other_byte):
        builds("another byte of the program", program, path, "is not the program that")
    for name in ("README.md", "crates/bw_tests_format/src/lib.rt"):
        with changed(copy / name, one_more_line):
            starts_at_once(f"another {name}", program, path)


def try_next_starts(copy, path):
    """A start after which no file has changed digests nothing; a file that has is seen, also with its times put back."""
    program, noted = copy / "bwingest", copy / "out/taken"
    time.sleep(SETTLED)
    starts_at_once("a start that is noted", program, path)
    TALLY.holds("a start that is noted", noted.exists(), "out/taken isn't there")
    seconds = min(started(program, path, "--version")[3] for _ in range(3))
    TALLY.holds("the next start", seconds < LONGEST_NEXT_START, f"it took {seconds:.2f} s")
    file = copy / "crates/bw_layout/src/lib.rt"
    was = file.stat()
    with changed(file, lambda content: content.replace(b"//!", b"//?", 1)):
        os.utime(file, ns=(was.st_atime_ns, was.st_mtime_ns))
        builds("another file of the same size and time", program, path, "was built from other sources")
    starts_at_once("the file as it was", program, path)


def try_another_machine(copy, path):
    """A program for a processor of another kind, which no kernel here runs."""
    release = copy / "release"
    machine = lambda content: content[:ELF_MACHINE] + b"\xf3\0" + content[ELF_MACHINE + 2 :]
    with changed(release / "bwingest", machine), changed(release / "SOURCES", one_more_line):
        how = {"check": True, "capture_output": True, "text": True}
        digest = subprocess.run(["sha256sum", release / "bwingest"], **how).stdout[:64]
        lines = (release / "SOURCES").read_text().split("program: ")[0]
        (release / "SOURCES").write_text(f"{lines}program: {digest}\n")
        builds("a program for another processor", copy / "bwingest", path, "can't run on this machine")


def try_aarch64(copy, work):
    """On a machine that says it is an aarch64 the program for that is tried, which no kernel of another kind runs."""
    folder = tools_in(work / "aarch64", "python3")
    (folder / "uname").unlink()
    (folder / "uname").write_text("#!/bin/sh\necho aarch64\n")
    (folder / "uname").chmod(0o755)
    builds("another machine", copy / "bwingest", folder, "release/bwingest-aarch64 can't run on this machine")


def has_level_3():
    """Whether the processor lists the features of x86-64-v3."""
    wanted = {"avx", "avx2", "bmi1", "bmi2", "f16c", "fma", "abm", "movbe"}
    lines = pathlib.Path("/proc/cpuinfo").read_text().splitlines()
    return wanted <= set(next((line for line in lines if line.startswith("flags")), "").split())


def taken(copy, path):
    how = {"env": {"PATH": str(path)}, "capture_output": True, "text": True, "stdin": subprocess.DEVNULL}
    ran = subprocess.run([copy / "tools/program"], **how)
    return ran.stdout, ran.stderr


def try_second(copy, path):
    """The program for x86-64-v3 is taken where it can run, and else the other one, without a word."""
    plain = (f"{copy}/release/bwingest\n", "")
    second = (f"{copy}/release/bwingest-v3\n", "") if has_level_3() else plain
    TALLY.same("which program is taken", taken(copy, path), second)
    file, sources = copy / "release/bwingest-v3", copy / "release/SOURCES"
    with changed(file, other_byte):
        TALLY.same("another byte of the program for x86-64-v3", taken(copy, path), plain)
    machine = lambda content: content[:ELF_MACHINE] + b"\xf3\0" + content[ELF_MACHINE + 2 :]
    was = hashlib.sha256(file.read_bytes()).hexdigest().encode()
    with changed(file, machine):
        now = hashlib.sha256(file.read_bytes()).hexdigest().encode()
        with changed(sources, lambda content: content.replace(was, now)):
            TALLY.same("a program for x86-64-v3 that can't run", taken(copy, path), plain)


def main():
    with tempfile.TemporaryDirectory() as work:
        work = pathlib.Path(work)
        path, with_python = tools_in(work / "few"), tools_in(work / "more", "python3")
        copy = copy_to(work / "a copy")
        starts_at_once("a fresh copy", copy / "bwingest", path)
        (work / "linked").symlink_to(copy / "bwingest")
        starts_at_once("through a link", work / "linked", path)
        try_next_starts(copy, with_python)
        try_changes(copy, with_python)
        try_another_machine(copy, with_python)
        try_second(copy, path)
        if platform.machine() != "aarch64":
            try_aarch64(copy, work)
        builds("BWINGEST_BUILD=1", copy / "bwingest", with_python, "proving and building", BWINGEST_BUILD="1")
    return TALLY.end()


if __name__ == "__main__":
    sys.exit(main())
