#!/usr/bin/env python3
"""Runs `takes --give-up` over folders that servers left: what is renamed, what isn't, and what the next server finds.

The program is the first argument, or the one of this repository. Prints what differs, and last 'N passed, M failed'.
"""
import signal
import subprocess
import sys

sys.dont_write_bytecode = True  # nothing is left beside this script
from kit.folders import folder_in, journaled, left_by, line_of, restored, says, small_take
from kit.hints import USAGE
from kit.network import connect, finish, hear_all, run, run_cases, start, TALLY
from kit.takes import BYE_FRAME, DELAYED_STORE, notice
from kit.watcher import ClosingWatcher

LONGEST_RUN = 120  # seconds, for all of it
BAD_NAME = (
    "error: '--give-up <NAME>' takes 1 to 32 bytes of a-z, 0-9, '-' and '_', "
    "without '--check', '--json' and '--digest'\n" + USAGE
)
RUNNING = "another server runs here\n"


def gives_up(folder, name, *options):
    return run("takes", "--folder", str(folder), f"--give-up={name}", *options)


def given_up(name):
    return 0, f"{name} given-up\n", ""


def unknown(name):
    return 1, "", f"{name}: no take of this name is here\n"


def earlier(name):
    return 1, "", f"{name}: one was given up earlier, its .given-up files are in the way\n"


def contents(folder):
    return {path.name: path.read_bytes() for path in folder.iterdir() if path.name != ".bwingest-lock"}


def case_given_up(place):
    """Journal and file are renamed, all else stays; after a start the name is free, and other takes go on."""
    first, other = small_take(), small_take("b2")
    folder = left_by(folder_in(place), [(first, 5), (other, 5)])
    before = contents(folder)
    TALLY.same("given up", gives_up(folder, "a1"), given_up("a1"))
    moved = {name.replace("a1.wav", "a1.wav.given-up").replace("a1.journal", "a1.journal.given-up"): content
             for name, content in before.items()}
    TALLY.same("the folder", contents(folder), moved)
    TALLY.same("the takes", run("takes", "--folder", str(folder)), (0, line_of(other, 5) + "\n", ""))
    TALLY.same("once more", gives_up(folder, "a1"), unknown("a1"))
    TALLY.same("the folder then", contents(folder), moved)
    server = journaled(folder, 1)
    again = small_take()
    says("the name is free", server, again, range(len(again.messages())))
    says("the other goes on", server, other, range(5, len(other.messages())))
    server.stop(signal.SIGKILL)
    TALLY.same("its file", (folder / "a1.wav").read_bytes(), again.file())
    kept = {name: content for name, content in contents(folder).items() if name.endswith(".given-up")}
    TALLY.same("what was given up", kept, {name: moved[name] for name in kept})
    TALLY.same("one given up earlier", gives_up(folder, "a1"), earlier("a1"))
    TALLY.same("the new one", (folder / "a1.wav").read_bytes(), again.file())


def case_parts(place):
    """A file without a journal, a journal without a file, and what a kill after the first of the two leaves."""
    take = small_take()
    folder = left_by(folder_in(place), [(take, 5)])
    saved = contents(folder)
    restored(folder, {"a1.wav": saved["a1.wav"]})
    TALLY.same("a file alone", gives_up(folder, "a1"), given_up("a1"))
    TALLY.same("its file", contents(folder), {"a1.wav.given-up": saved["a1.wav"]})
    restored(folder, {"a1.journal": saved["a1.journal"]})
    TALLY.same("a journal alone", gives_up(folder, "a1"), given_up("a1"))
    TALLY.same("its journal", contents(folder), {"a1.journal.given-up": saved["a1.journal"]})
    killed = {"a1.journal.given-up": saved["a1.journal"], "a1.wav": saved["a1.wav"]}
    restored(folder, killed)
    journaled(folder, 0).stop(signal.SIGKILL)
    TALLY.same("after a start", contents(folder), killed)
    TALLY.same("once more", gives_up(folder, "a1"), given_up("a1"))
    TALLY.same("all of it", contents(folder), {f"{name}.given-up": content for name, content in saved.items()})


def case_in_the_way(place):
    """Something that is where a file would go is never overwritten, and nothing is renamed then."""
    folder = left_by(folder_in(place), [(small_take(), 5)])
    saved = contents(folder)
    for name in ("a1.journal.given-up", "a1.wav.given-up"):
        restored(folder, {**saved, name: b"an earlier one"})
        TALLY.same(name, gives_up(folder, "a1"), earlier("a1"))
        TALLY.same(f"{name}: the folder", contents(folder), {**saved, name: b"an earlier one"})


def case_refusing_takes(place):
    """A take that a server leaves out is given up, and its name is free for the next server."""
    take = small_take()
    folder = left_by(folder_in(place), [(take, 5), (small_take("b2"), 5)])
    (folder / "a1.wav").unlink()
    server = journaled(folder, 2)
    with connect(server.port) as peer:
        peer.sendall(take.messages()[5] + BYE_FRAME)
        TALLY.same("left out", hear_all(peer), notice("a1", 5, DELAYED_STORE, 0))
    TALLY.same("its cause", server.stop()[2], f"{folder}/a1.journal: LostFile, left out\n")
    TALLY.same("given up", gives_up(folder, "a1"), given_up("a1"))
    server = journaled(folder, 1)
    says("the name is free", server, take, range(len(take.messages())))
    server.stop(signal.SIGKILL)


def case_running(place):
    """While a server with journals runs nothing is renamed, whatever the name."""
    folder = left_by(folder_in(place), [(small_take(), 5)])
    server = journaled(folder, 1)
    saved = contents(folder)
    for name in ("a1", "none"):
        TALLY.same(f"{name} while a server runs", gives_up(folder, name), (3, "", RUNNING))
    TALLY.same("the folder", contents(folder), saved)
    server.stop(signal.SIGKILL)
    TALLY.same("after it", gives_up(folder, "a1"), given_up("a1"))


def case_order(place):
    """Under the lock, which is let go last, each renaming is synced before the next one, and before it is reported."""
    folder, watcher = left_by(folder_in(place), [(small_take(), 5)]), ClosingWatcher()
    words = ("takes", "--folder", str(folder), "--give-up", "a1")
    told = finish(start(*words, observer=watcher, stdout=subprocess.PIPE, stderr=subprocess.PIPE))
    TALLY.same("watched", told, given_up("a1"))
    kinds = ("lock ", "rename ", f"sync {folder.name}", "write out", "close .bwingest-lock")
    renamed = [f"rename {folder}/a1.{end} {folder}/a1.{end}.given-up" for end in ("journal", "wav")]
    wanted = ["lock .bwingest-lock", *(line for it in renamed for line in (it, f"sync {folder.name}"))]
    wanted += [f"write out {told[1].encode().hex()}", "close .bwingest-lock"]
    TALLY.same("the order", [line for line in watcher.lines if line.startswith(kinds)], wanted)


def case_names(place):
    """Names that begin with a hyphen, unknown ones, and those that are none."""
    folder = folder_in(place)
    for name in ("-", "--", "--check", "-a", "_", "z" * 32):
        (folder / f"{name}.wav").write_bytes(name.encode())
        TALLY.same(name, gives_up(folder, name), given_up(name))
        TALLY.same(f"{name}: its file", (folder / f"{name}.wav.given-up").read_bytes(), name.encode())
    TALLY.same("a word of its own", run("takes", "--folder", str(folder), "--give-up", "none"), unknown("none"))
    for name in ("", "A1", "a.1", "../a1", "a/b", "z" * 33, "ä"):
        TALLY.same(f"{name!r}", gives_up(folder, name), (2, "", BAD_NAME))
    for options in (("--check",), ("--json",), ("--digest",), ("--check", "--json")):
        TALLY.same(" ".join(options), gives_up(folder, "_", *options), (2, "", BAD_NAME))


def case_unread(place):
    """A folder that isn't there, or is none, or a file that is a folder."""
    missing = place / "missing"
    wanted = (3, "", f"{missing} can't be opened: .bwingest-lock: No such file or directory (os error 2)\n")
    TALLY.same("no folder", gives_up(missing, "a1"), wanted)
    folder = folder_in(place)
    (folder / "a1.journal").mkdir()
    TALLY.same("a folder as a journal", gives_up(folder, "a1"), (3, "", f"{folder} can't be read\n"))
    TALLY.same("it stays", (folder / "a1.journal").is_dir(), True)


cases = [value for name, value in list(globals().items()) if name.startswith("case_")]
sys.exit(run_cases(cases, LONGEST_RUN))
