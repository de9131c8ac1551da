#!/usr/bin/env python3
"""Runs `serve` and `send` of the built program as a user would, over the local address 127.0.0.1.

Files, lines, replies and statuses are compared with what docs/FORMATS.md says of the samples that were sent. Each wait
has a limit, and what was started is ended. The program is the first argument, or the one of this repository. Prints
what differs, and last 'N passed, M failed'.
"""
import contextlib
import os
import pty
import random
import re
import signal
import socket
import subprocess
import sys
import threading
import time

sys.dont_write_bytecode = True  # nothing is left beside this script
from cases.disks import case_bad_folder, case_folder_goes_away, case_full_disk, case_name_taken
from cases.peers import case_bad_servers, case_cut_client, case_deaf_peer, case_garbage, case_silent_peer
from kit import logs
from kit.hints import hinted, REFUSED
from kit.network import connect, ends_by_signal, finish, free_port, hear_all, LEAST_LIMIT, LOCAL, LONGEST_WAIT, Relay
from kit.network import run, run_cases, same_exchanges, same_file, same_port_in_use, same_replay, same_settled, send
from kit.network import send_all, send_words, Server, start, start_with_pipes, stopped, TALLY, UNSETTLED, wait_until
from kit.network import WINDOW
from kit.takes import ASK, BYE_FRAME, LARGEST_LIMIT, message, Take

LONGEST_RUN = 170  # seconds, for all of it


def through_relay(folder, limit=LARGEST_LIMIT, seed=1, exchanges=None):
    """A take of 7 MB through a relay that cuts its connections."""
    name = "cut connections, " + (f"{exchanges} exchanges" if exchanges else "until stopped")
    take = Take("field-1", 7_000_000, seed, markers=[(1, 0), (7, 1_000_000)])
    until = ("--exchanges", str(exchanges)) if exchanges else ("--until-stopped",)
    server = Server(folder, "--limit", str(limit), *until)
    relay = Relay(server.port, seed)
    output = send(relay.port, take, "--rounds", "1000")
    relay.stop()
    count = len(take.requests())
    same_settled(name, output, count, count, 0)
    TALLY.holds(name, relay.connections >= 20, f"only {relay.connections} connections, not 20")
    lines = server.lines(relay.connections)
    ends = r"Bye|EndOfInput|BadFrame|ReadFault|WriteFault"
    odd = [at for at, line in enumerate(lines) if not re.fullmatch(rf"exchange {at} ({ends})", line or "")]
    TALLY.same(f"{name}: lines without an end of an exchange", [lines[at] for at in odd], [])
    if exchanges:
        end_with_silence(name, server, relay.connections, exchanges)
    else:
        stopped(name, server)
    same_file(name, folder, take, limit=limit)
    same_replay(name, take, limit)


def end_with_silence(name, server, served, exchanges):
    """Nothing is said in the exchanges that are left. After the last one the server ends."""
    for _ in range(served, exchanges):
        with connect(server.port) as peer:
            peer.shutdown(socket.SHUT_WR)
            hear_all(peer)
    status, lines, faults = server.end()
    TALLY.same(f"{name}: the server's end", (status, faults), (0, ""))
    same_exchanges(f"{name}: the last exchanges", lines, ["EndOfInput"] * (exchanges - served), served)


def case_until_stopped(folder):
    through_relay(folder, seed=1)


def case_exchanges(folder):
    through_relay(folder, limit=LEAST_LIMIT, seed=2, exchanges=600)


def window_count(requests):
    """The number of windows that this many requests fill, if nothing fails."""
    return -(-requests // WINDOW)


def case_whole_windows(folder):
    """If nothing fails, each round settles a window, and the server ends after the last one."""
    take = Take("field-2", 1_199_997, 3)
    count = len(take.requests())
    rounds = window_count(count)
    server = Server(folder, "--exchanges", str(rounds))
    same_settled("whole windows", send(server.port, take), count, count, 0)
    wanted = [f"exchange {index} Bye" for index in range(rounds)]
    TALLY.same("whole windows: the server", server.end(), (0, wanted, ""))
    same_file("whole windows", folder, take)


def case_few_rounds(folder):
    """Two rounds are not enough for the take: what they settle stays, and a later sender continues."""
    take = Take("field-3", 1_200_000, 4)
    count = len(take.requests())
    server = Server(folder, "--until-stopped")
    same_settled("few rounds", send(server.port, take, "--rounds", "2"), 2 * WINDOW, 2 * WINDOW, 3)
    same_file("few rounds", folder, take, blocks=2 * WINDOW - take.FIRST_BLOCK)
    same_settled("more rounds", send(server.port, take), count, count, 0)
    same_exchanges("more rounds", server.lines(2 + window_count(count)), ["Bye"] * (2 + window_count(count)))
    same_file("more rounds", folder, take)
    stopped("more rounds", server)


def case_progress(folder):
    """On a terminal a sender reports its progress after each round, even one without a connection."""
    take = Take("watched", 1_200_000, 21)
    count = len(take.requests())
    server = Server(folder, "--until-stopped")
    settled = [min(number * WINDOW, count) for number in range(1, window_count(count) + 1)]
    output = send_on_terminal(server.port, take)
    TALLY.same("progress", output, (0, f"settled {count}\nstored {count}\n", progress_lines(take, settled)))
    for options, rounds in (((), 16), (("--rounds", "2"), 2)):
        output = send_on_terminal(free_port(), take, *options)
        wanted = REFUSED + progress_lines(take, [0] * rounds) + UNSETTLED
        TALLY.same(f"no progress in {rounds} rounds", output, (3, "settled 0\nstored 0\n", wanted))
    ends_by_signal("progress", server)


def progress_lines(take, settled):
    """The lines of rounds: this many requests are settled after each, and all of them stored."""
    lines = []
    for number, count in enumerate(settled, 1):
        samples = sum(map(len, take.blocks[: max(0, count - take.FIRST_BLOCK)]))
        lines.append(f"round {number} settled {count} stored {count} bytes {samples}\n")
    return "".join(lines)


def send_on_terminal(port, take, *options):
    """Runs a sender whose standard error is a terminal; its status, its output, and what the terminal shows."""
    reader, terminal = pty.openpty()
    try:
        streams = {"stdin": subprocess.PIPE, "stdout": subprocess.PIPE, "stderr": terminal}
        process = start(*send_words(port, take, *options), **streams)
    finally:
        os.close(terminal)
    with open(reader, "rb", buffering=0) as shown:
        status, out, _ = finish(process, take.lines(), "send")
        return status, out, all_shown(shown).decode(errors="replace").replace("\r\n", "\n")


def all_shown(terminal):
    """All that a terminal shows whose other end is closed."""
    shown = b""
    with contextlib.suppress(OSError):  # a read after the last byte fails
        while piece := terminal.read(65_536):
            shown += piece
    return shown


def case_two_senders(folder):
    """Of two senders at once the server serves the exchanges in turn."""
    takes = [Take("left", 1_500_000, 6), Take("right", 1_500_000, 7)]
    server = Server(folder, "--until-stopped")
    for take, output in zip(takes, send_all(server.port, takes, "--rounds", "50")):
        count = len(take.requests())
        same_settled(f"two senders: {take.name}", output, count, count, 0)
        same_file(f"two senders: {take.name}", folder, take)
    ends_by_signal("two senders", server)


def case_port_in_use(folder):
    same_port_in_use(folder)


def case_nobody_listens(folder):
    take = Take("field-4", 3_000, 8)
    same_settled("nobody listens", send(free_port(), take), 0, 0, 3)


def case_host(folder):
    """A host's name is looked up with `--network`, in each form of the option; a take may be called `--connect`."""
    take = Take("--connect", 3_000, 24)
    count = len(take.requests())
    server = Server(folder, "--until-stopped")
    host = f"localhost:{server.port}"
    for server_words in (("--connect", host), (f"--connect={host}",)):
        words = ("send", "--network", "--name", take.name, *server_words)
        same_settled(f"a host, {server_words}", run(*words, given=take.lines()), count, count, 0)
    output = run("send", "--connect", host, "--name", take.name, given=take.lines())
    TALLY.same("a host without --network", output[:2], (2, ""))
    TALLY.holds("a host without --network", output[2].startswith("error: '--connect <ADDR>' takes"), output[2])
    same_file("a host", folder, take)
    ends_by_signal("a host", server)


def case_no_answer(folder):
    """If connections to a port are no longer accepted, each round ends when its time is over."""
    with socket.socket() as listener, contextlib.ExitStack() as waiting:
        listener.bind((LOCAL, 0))
        listener.listen(0)
        for _ in range(4):
            peer = waiting.enter_context(socket.socket())
            peer.setblocking(False)
            peer.connect_ex(listener.getsockname())
        begun = time.monotonic()
        output = send(listener.getsockname()[1], Take("field-16", 3_000, 16), "--rounds", "2", "--timeout", "1")
        waited = time.monotonic() - begun
    same_settled("no answer", output, 0, 0, 3)
    TALLY.holds("no answer", 1 < waited < 20, f"two rounds of a second take {waited:.1f} s")


def case_bad_line(folder):
    words = ("send", "--connect", f"{LOCAL}:{free_port()}", "--name", "field-5")
    for bad in (b"zz", b"06", b"02", b""):
        output = run(*words, given=Take("field-5", 30, 8).lines() + bad + b"\n")
        TALLY.same(f"the line {bad!r}", output, (1, "", "line 6: not a request\n"))


def case_log(folder):
    """With `--log` the start, and each connection as it begins and ends, has a line; the last counts its own messages."""
    take = Take("logged", 3_000, 22)
    names = [f"take-{at}" for at in range(9)]
    opening = take.requests()[0]
    asked = message("zz", 0, bytes([ASK]))
    server = Server(folder, "--exchanges", "3", "--log")
    same_settled("a log: the sender", send(server.port, take), len(take.requests()), len(take.requests()), 0)
    messages = [message(name, 0, opening) for name in [*names, "take-0"]]
    ends = [say_logged(server.port, said) for said in (b"".join(messages) + asked + BYE_FRAME, asked)]
    bodies = [sum(len(said) - 4 for said in sent) for sent in (take.messages(), messages)]
    wanted = [
        f"names {take.name} end Bye messages {len(take.requests())} bytes {bodies[0]}",
        f"names {' '.join(names[:8])} end Bye messages {len(messages)} bytes {bodies[1]}",
        "names end EndOfInput messages 0 bytes 0",
    ]
    status, lines, faults = server.end()
    TALLY.same("a log: the status", status, 0)
    same_exchanges("a log: the exchanges", lines, ["Bye", "Bye", "EndOfInput"])
    logged = [re.fullmatch(r"peer 127\.0\.0\.1:(\d+) (.*)", line) for line in logs.ends("a log", faults)]
    TALLY.same("a log: the lines", [line and line[2] for line in logged], wanted)
    TALLY.same("a log: the peers", [line and int(line[1]) for line in logged[1:]], ends)
    lines = [f"started {LOCAL}:{server.port} folder {folder}"]
    for line in filter(None, logged):
        lines += [f"peer {LOCAL}:{line[1]} begun", line[0]]
    TALLY.same("a log: all of it", logs.untimed("a log", faults), lines)


def case_log_of_takes(folder):
    """With `--log` and journals a take is logged as it is opened and closed, each message that is refused, and, with their
    times, names that are left out."""
    take = Take("lasting", 144_003, 23)
    last = len(take.requests())
    messages = take.messages()
    late = message(take.name, last, take.requests()[0])  # an OPEN after CLOSE
    for at, options in enumerate((("--recorders", "2"), ())):
        name = f"a log of takes, {' '.join(options) or 'in turn'}"
        place = folder / str(at)
        place.mkdir()
        server = Server(place, "--exchanges", "2", "--journal", "--log", *options, opening=("resumed 0 takes",))
        # CLOSE is held, and done with what comes last
        for said in (messages[0] + messages[-1], b"".join(messages[1:-1]) + late):
            say_logged(server.port, said)
        status, _, faults = server.end()
        wanted = [
            "take lasting opened frames 0",
            "take lasting closed frames 48001 seconds 1.000 MB 0.144",
            f"take lasting refused {last} Closed",
        ]
        found = [line for line in logs.untimed(name, faults) if line.startswith("take ")]
        TALLY.same(name, (status, found), (0, wanted))
        again = ["take lasting opened frames 48001"]
        for what, said, wanted in (("repeats", b"".join(messages[1:]), []), ("a repeated OPEN", messages[0], again)):
            server = Server(place, "--exchanges", "1", "--journal", "--log", *options, opening=("resumed 1 takes",))
            say_logged(server.port, said)
            found = [line for line in logs.untimed(name, server.end()[2]) if line.startswith("take ")]
            TALLY.same(f"{name}: {what} after a start", found, wanted)
        (place / f"{take.name}.wav").unlink()
        server = Server(place, "--exchanges", "1", "--journal", "--log", *options, opening=("resumed 1 takes",))
        say_logged(server.port, messages[0])
        found = logs.untimed(name, server.end()[2])
        TALLY.holds(f"{name}: a fault", f"{place}/{take.name}.journal: LostFile, left out" in found, f"{found}")


def case_log_as_json(folder):
    """With `--log=json` each line is an object: its time, its message, and the take or peer that the line begins with."""
    take = Take("objects", 48_000, 24)
    for at, options in enumerate((("--log=json",), ("--log", "json"), ("--recorders", "2", "--log=json"))):
        name = f"a log as JSON, {' '.join(options)}"
        place = folder / f'{at}\t"\\é'  # what JSON escapes, and what it doesn't
        place.mkdir()
        server = Server(place, "--exchanges", "1", "--journal", *options, opening=("resumed 0 takes",))
        port = say_logged(server.port, b"".join(take.messages()))
        status, _, faults = server.end()
        TALLY.same(f"{name}: the status", status, 0)
        bodies = sum(len(said) - 4 for said in take.messages())
        peer = f"{LOCAL}:{port}"
        wanted = [
            {"message": f"started {LOCAL}:{server.port} folder {place}"},
            {"message": "begun", "peer": peer},
            {"message": "opened frames 0", "take": take.name},
            {"message": "closed frames 16000 seconds 0.333 MB 0.048", "take": take.name},
            {"message": f"names {take.name} end EndOfInput messages {len(take.requests())} bytes {bodies}", "peer": peer},
        ]
        TALLY.same(name, logs.objects(name, faults), wanted)
    words = ("serve", "--listen", f"{LOCAL}:{free_port()}", "--folder", str(folder), "--log=xml")
    status, out, faults = run(*words)
    TALLY.same("another form of the log", (status, out), (2, ""))
    TALLY.holds("another form of the log: the line", faults.startswith("error: '--log [<FORM>]' takes 'lines' or 'json'"), faults)


def say_logged(port, said):
    """Sends this and receives the replies, over one connection; its port."""
    with connect(port) as peer:
        peer.sendall(said)
        peer.shutdown(socket.SHUT_WR)
        hear_all(peer)
        return peer.getsockname()[1]


def case_signals(folder):
    """After a server is stopped while it receives a take, the file has what was stored."""
    chance = random.Random(13)
    for number, limit in ((signal.SIGTERM, LEAST_LIMIT), (signal.SIGINT, LARGEST_LIMIT)):
        take = Take(f"stopped-{number}", 7_000_000, 14)
        server = Server(folder, "--until-stopped", "--limit", str(limit))
        sender = start_with_pipes(*send_words(server.port, take))
        feeder = threading.Thread(target=lambda: sender.stdin.write(take.lines()) and sender.stdin.close())
        feeder.start()
        path = folder / f"{take.name}.wav"
        length = chance.randint(100_000, 1_500_000)
        wait_until(lambda: path.exists() and path.stat().st_size >= length, f"{path.name} doesn't grow")
        status, _lines, faults = server.stop(number)
        TALLY.same(f"{number.name}: the server", (status, faults), (-number, ""))
        feeder.join(LONGEST_WAIT)
        sender.stdin = None
        status, out, faults = finish(sender, name="send")
        TALLY.same(f"{number.name}: the sender", (status, faults), (3, UNSETTLED))
        settled, stored = map(int, re.fullmatch(r"settled (\d+)\nstored (\d+)\n", out).groups())
        TALLY.same(f"{number.name}: what is settled", settled, stored)
        same_stopped_file(number.name, path, take, stored, limit)


def same_stopped_file(name, path, take, stored, limit):
    """The file has the first blocks, with all that were reported as stored.

    The two sizes of a RIFF file are written by two calls. Between them the form's size is one block ahead, and
    `inspect` misses what follows the data.
    """
    found = path.read_bytes()
    place = 28 if limit == LEAST_LIMIT else 686
    data = int.from_bytes(found[place : place + 4], "little")
    blocks = -(-data // len(take.blocks[0]))
    wanted = take.file(blocks, limit)
    end = (0, "")
    ahead = take.file(blocks + 1, limit)[4:8]
    if limit == LARGEST_LIMIT and found[4:8] == ahead:
        wanted = wanted[:4] + ahead + wanted[8:]
        end = (1, hinted("inspect", f"Truncated at {690 + data}"))
    TALLY.same(f"{name}: the start of the file", found[: len(wanted)], wanted)
    status, _out, faults = run("inspect", str(path))
    TALLY.same(f"{name}: inspect", (status, faults), end)
    stored_blocks = stored - take.FIRST_BLOCK
    TALLY.holds(f"{name}: the file", blocks >= stored_blocks, f"{blocks} blocks, though {stored_blocks} are stored")


def case_typed(_folder):
    """A line says before the first request that they are read, if they are typed, and only then."""
    terminal, end = pty.openpty()
    pipe = subprocess.PIPE
    words = ("send", "--connect", f"{LOCAL}:{free_port()}", "--name", "a1")
    sender = start(*words, stdin=end, stdout=pipe, stderr=pipe)
    os.close(end)
    timer = threading.Timer(5, sender.kill)
    timer.start()
    said = sender.stderr.readline()
    timer.cancel()
    note = b"send: reads requests from standard input, each a line of hex, to its end (Ctrl-D)\n"
    TALLY.same("typed", said, note)
    os.write(terminal, b"no request\n\x04")
    TALLY.same("typed: a bad line", finish(sender), (1, "", "line 1: not a request\n"))
    os.close(terminal)
    TALLY.same("not typed", run(*words, given=b"no request\n"), (1, "", "line 1: not a request\n"))


CASES = [
    case_until_stopped,
    case_exchanges,
    case_whole_windows,
    case_few_rounds,
    case_progress,
    case_two_senders,
    case_port_in_use,
    case_nobody_listens,
    case_host,
    case_no_answer,
    case_bad_line,
    case_bad_folder,
    case_folder_goes_away,
    case_full_disk,
    case_name_taken,
    case_garbage,
    case_log,
    case_log_of_takes,
    case_log_as_json,
    case_typed,
    case_silent_peer,
    case_deaf_peer,
    case_cut_client,
    case_signals,
    case_bad_servers,
]


sys.exit(run_cases(CASES, LONGEST_RUN))
