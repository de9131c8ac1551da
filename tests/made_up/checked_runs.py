"""Runs of the program that must end as the documents say, whatever they are given."""
import os
import re
import subprocess
from collections import namedtuple

from kit.tally import difference

LONGEST_WAIT = 20  # seconds, for one run of the program
ENDLESS = "doesn't end"
PROGRAM = None  # its path; each worker of try_malformed sets it

Ended = namedtuple("Ended", "status out faults")
Replayed = namedtuple("Replayed", "exchanges files")  # lists of lines, and the files by name


class Fault(Exception):
    """The program didn't do what the documents say."""


def same(what, found, wanted):
    if found != wanted:
        raise Fault(f"{what}: {difference(found, wanted)}")


def holds(what, is_so):
    if not is_so:
        raise Fault(what)


def run(*words, given=b"", folder=None):
    """A run that ends in time, without a signal, with a status of docs/OPERATING.md and the streams that belong to it.

    Its input is bytes, which it reads through a pipe, or an open file.
    """
    shown = " ".join(map(repr, words))
    source = {"input": given} if isinstance(given, bytes) else {"stdin": given}
    with in_memory("output") as out:
        streams = {"stdout": out, "stderr": subprocess.PIPE, **source}
        try:
            done = subprocess.run([PROGRAM, *words], timeout=LONGEST_WAIT, cwd=folder, **streams)
        except subprocess.TimeoutExpired:
            raise Fault(f"{shown} {ENDLESS}") from None
        out.seek(0)
        ended = Ended(done.returncode, out.read(), done.stderr.decode(errors="replace"))
    holds(f"{shown}: status {ended.status}, faults {ended.faults[:300]!r}", is_well_ended(ended))
    return ended


def in_memory(name):
    return open(os.memfd_create(name), "w+b")


def is_well_ended(ended):
    if ended.status == 0:
        return ended.faults == ""
    if ended.status == 2:
        lines = ended.faults.split("\n")
        is_named = lines[0].startswith("error: ") or lines[0] == "the command line can't be read"
        return is_named and ended.out == b"" and "panic" not in ended.faults
    is_line = re.fullmatch(r"[^\n]*\n(hint: [^\n]*\n)?", ended.faults) is not None  # and a hint below it
    return ended.status in (1, 3) and is_line and ended.out == b"" and "panic" not in ended.faults


def done_well(ended):
    same("the status and the faults", (ended.status, ended.faults), (0, ""))
    return ended.out


def replay(exchanges, *options):
    given = b"".join(data.hex().encode() + b"\n" for data in exchanges)
    lines = done_well(run("replay", *options, given=given)).decode().split("\n")
    holds("the last line of a replay ends", lines.pop() == "")
    ended, files = [], {}
    while lines and not lines[-1].startswith(("exchange ", "reply ")):
        data = bytes.fromhex(lines.pop())
        word, name, length = lines.pop().split(" ")
        same(f"the line of the file {name}", (word, length), ("file", str(len(data))))
        files[name] = data
    same("the order of the files", list(reversed(files)), sorted(files))
    for line in lines:
        if line.startswith("reply "):
            ended[-1].append(line)
        else:
            ended.append([line])
    same("how many exchanges are printed", len(ended), len(exchanges))
    return Replayed(ended, files)
