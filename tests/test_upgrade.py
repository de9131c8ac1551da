#!/usr/bin/env python3
"""Exchanges the program under a folder with open takes, while live recorders send to it.

  tests/test_upgrade.py [PROGRAM [OLD]]   the program of this repository, and the newest other release, by git

Twenty recorders write samples, half of them with OLD's sender and half with PROGRAM's. OLD serves them and is stopped;
PROGRAM goes on with the open takes; then OLD again, as whoever goes back; and PROGRAM last. Each sender must end with
status 0, each take be closed, and its file have the samples that were written. Where OLD writes journals of another
format, PROGRAM must leave out its takes by name and change nothing, and take them anew once they are given up. The
second argument, or git with a history, is needed. Prints what differs, and last 'N passed, M failed'.
"""
import pathlib
import subprocess
import sys

sys.dont_write_bytecode = True  # nothing is left beside this script
from kit.network import free_port, LOCAL, LONGEST_WAIT, PROGRAM, run, run_cases, Server, STARTED, TALLY
from kit.processes import prepare_child
from kit.recorders import Recorder, wait_until_sent
from kit.repository import ROOT
from kit.uploads import folder_in, samples_of, settled, words_of

RECORDERS = 20
TONE = ROOT / "examples/tone.wav"
TONE_REQUESTS = 9
RELEASED = "release/bwingest"
OPTIONS = ("--until-stopped", "--journal", "--recorders", "64")


def output_of_git(*words):
    return subprocess.run(["git", *words], cwd=ROOT, capture_output=True, check=True).stdout


def old_program(folder):
    """The program that is given, or the newest release that isn't the one that is tried."""
    if len(sys.argv) > 2:
        return sys.argv[2]
    commits = output_of_git("log", "-9", "--format=%H", "--", RELEASED).decode().split()
    releases = (output_of_git("show", f"{it}:{RELEASED}") for it in commits)
    program = folder / "old"
    program.write_bytes(next(it for it in releases if it != pathlib.Path(PROGRAM).read_bytes()))
    program.chmod(0o755)
    return str(program)


def serve(program, folder, port, count):
    """Starts a server, which has to go on with so many takes."""
    words = [program, "serve", "--listen", f"{LOCAL}:{port}", "--folder", folder, *OPTIONS]
    streams = {"stdout": subprocess.PIPE, "stderr": subprocess.DEVNULL, "text": True}
    process = subprocess.Popen(words, preexec_fn=prepare_child, **streams)
    STARTED.append(process)
    lines = [process.stdout.readline() for _ in range(2)]
    what = "PROGRAM" if program == PROGRAM else "OLD"
    TALLY.same(f"start of {what}", lines, [f"resumed {count} takes\n", f"listening {LOCAL}:{port}\n"])
    return process


def stop(process):
    process.terminate()
    process.wait(LONGEST_WAIT)


def check_take(takes, recorder):
    """The recorder's sender ends well, and its take is whole."""
    status, faults = recorder.end(LONGEST_WAIT)
    TALLY.same(f"status of {recorder.take}", status, 0)
    if status:
        print(faults[-300:])
    TALLY.same(f"samples of {recorder.take}", samples_of(takes / f"{recorder.take}.wav"), recorder.samples())


def leave_take(program, takes):
    """Has a program serve and close a take; the first bytes of its journal."""
    port = free_port()
    server = serve(program, takes, port, 0)
    run(*words_of(port, "tone", TONE))
    stop(server)
    return (takes / "tone.journal").read_bytes()[:8]


def files_of(takes):
    return {it.name: it.read_bytes() for it in takes.glob("*.*")}


def check_left_out(takes, old):
    """What OLD left is left out, and stays as it was for OLD, until it is given up: its name is free then."""
    before, server = files_of(takes), Server(takes, *OPTIONS, opening=("resumed 1 takes",))
    status, out, _faults = run(*words_of(server.port, "tone", TONE, "--fruitless", "1"))
    TALLY.same("a take of another format", (status, out), (3, settled(0)))
    TALLY.same("what is printed of it", server.stop()[2], f"{takes}/tone.journal: NotAJournal, left out\n")
    TALLY.same("its files", files_of(takes), before)
    stop(serve(old, takes, free_port(), 1))
    TALLY.same("given up", run("takes", "--folder", str(takes), "--give-up", "tone")[0], 0)
    server = Server(takes, *OPTIONS, opening=("resumed 0 takes",))
    TALLY.same("taken anew", run(*words_of(server.port, "tone", TONE)), (0, settled(TONE_REQUESTS), ""))
    server.stop()


def case_upgrade(folder):
    old, left = old_program(folder), folder_in(folder, "left")
    if leave_take(old, left) == leave_take(PROGRAM, folder_in(folder, "own")):
        check_live(folder, old)
    else:
        check_left_out(left, old)


def check_live(folder, old):
    takes, port = folder_in(folder), free_port()
    server = serve(old, takes, port, 0)
    senders = [old if at % 2 else PROGRAM for at in range(RECORDERS)]
    recorders = [Recorder(folder, it, f"{LOCAL}:{port}", f"live-{at}") for at, it in enumerate(senders)]
    STARTED.extend(it.sender for it in recorders)
    for program in (PROGRAM, old, PROGRAM):
        wait_until_sent(recorders, takes, 100_000)
        stop(server)
        server = serve(program, takes, port, RECORDERS)
    wait_until_sent(recorders, takes, 100_000)
    for recorder in recorders:
        check_take(takes, recorder)
    stop(server)
    _status, out, _faults = run("takes", "--folder", str(takes))
    TALLY.same("closed takes", [line.split()[1] for line in out.splitlines()], ["closed"] * RECORDERS)


if __name__ == "__main__":
    sys.exit(run_cases([case_upgrade], 120))
