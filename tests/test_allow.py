#!/usr/bin/env python3
"""Runs `serve --allow` of the built program: which names it takes from which addresses, and which files it refuses.

Frames and replies are worked out by hand from docs/FORMATS.md. Peers come from two addresses of this machine, 127.0.0.1
and 127.0.0.2. The program is the first argument, or the one of this repository. Prints what differs, and last
'N passed, M failed'.
"""
import json
import os
import pathlib
import socket
import sys
import urllib.request

sys.dont_write_bytecode = True  # nothing is left beside this script
from kit import logs
from kit.network import free_port, hear, LOCAL, reason, run, run_cases, Server, TALLY, wait_until
from kit.takes import BYE_FRAME

LONGEST_RUN = 120  # seconds, for all of it
OTHER = "127.0.0.2"

SHOWN = "--status"  # at a free port
NO_FILE = "it isn't a regular file"

# The take `a1`: OPEN 0 (48,000 Hz, one channel, 16 bits), BLOCK 1 with two frames, CLOSE 2 with the total 2.
OPEN = b"\x12\0\0\0\x01\x02a1\0\0\0\0\x80\xbb\0\0\x01\0\x10\0\0\0"
BLOCK = b"\x0c\0\0\0\x02\x02a1\x01\0\0\0\x01\0\x02\0"
CLOSE = b"\x10\0\0\0\x05\x02a1\x02\0\0\0\x02\0\0\0\0\0\0\0"
ASK = b"\x08\0\0\0\x06\x02a1\x07\0\0\0"
STORED = [b"\x09\0\0\0\x81\x02a1" + bytes([number]) + b"\0\0\0\0" for number in range(3)]
FULL = [b"\x0d\0\0\0\x82\x02a1" + bytes([number]) + b"\0\0\0\x23\0\0\0\0" for number in range(3)]  # 35: TableFull
NEXT_0 = b"\x0d\0\0\0\x82\x02a1\x07\0\0\0\x27\0\0\0\0"  # 39: Next
NEXT_1 = b"\x0d\0\0\0\x82\x02a1\x07\0\0\0\x27\x01\0\0\0"

WAYS = ((), ("--recorders", "2"), ("--recorders", "2", "--journal"), ("--journal",), ("--recorders", "2", "--journal", SHOWN))

# A list, a name, and from which of the two addresses it is taken.
ROWS = (
    ("a1 127.0.0.1\n", "a1", (LOCAL,)),
    ("a1 127.0.0.1", "a1", (LOCAL,)),
    ("b2 127.0.0.1\n", "a1", ()),
    ("a 127.0.0.1\n", "a1", ()),
    ("a1x 127.0.0.1\n", "a1", ()),
    ("a* 127.0.0.1\n", "a1", (LOCAL,)),
    ("a1* 127.0.0.1\n", "a1", (LOCAL,)),
    ("a12* 127.0.0.1\n", "a1", ()),
    ("* 127.0.0.0/8\n", "a1", (LOCAL, OTHER)),
    ("* 0.0.0.0/0\n", "a1", (LOCAL, OTHER)),
    ("* 127.0.0.2/32\n", "a1", (OTHER,)),
    ("* 127.0.0.0/31\n", "a1", (LOCAL,)),
    ("* 127.0.0.3/31\n", "a1", (OTHER,)),
    ("* 127.0.0.0/30\n", "a1", (LOCAL, OTHER)),
    ("* ::/0\n", "a1", ()),
    ("* ::127.0.0.1 ::fffe:127.0.0.1/128 127.0.0.1\n", "a1", (LOCAL,)),
    ("* ::1 10.0.0.0/8 127.0.0.2\n", "a1", (OTHER,)),
    ("b2 127.0.0.1\na1\t127.0.0.2\n", "a1", (OTHER,)),
    ("# a1 127.0.0.1\n\n  \n a1  127.0.0.2 \r\n", "a1", (OTHER,)),
    ("a1 127.0.0.1\na1 127.0.0.2\n", "a1", (LOCAL, OTHER)),
    ("", "a1", ()),
    ("_-0* 127.0.0.1\n", "_-0z", (LOCAL,)),
)

# A list that is refused, and the number of its first bad line.
REFUSED = (
    ("a1\n", 1),
    ("a1 127.0.0.1\nb2\n", 2),
    ("# none\n\na1 127.0.0.256\n", 3),
    ("A1 127.0.0.1\n", 1),
    ("a*1 127.0.0.1\n", 1),
    ("** 127.0.0.1\n", 1),
    ("a1 127.0.0.1/33\n", 1),
    ("a1 127.0.0.1/-1\n", 1),
    ("a1 127.0.0.1/\n", 1),
    ("a1 127.0.0.1/8/8\n", 1),
    ("a1 ::1/129\n", 1),
    ("a1 127.0.0.1 # here\n", 1),
    ("a1 localhost\n", 1),
    ("a1 127.0.0.1:80\n", 1),
    ("a1,b2 127.0.0.1\n", 1),
    ("a1 ::ffff:127.0.0.1\n", 1),
    ("a1 127.0.0.1\nb2 ::FFFF:7f00:1\n", 2),
    ("a1 0:0:0:0:0:ffff:127.0.0.0/104\n", 1),
    ("a1 ::ffff:0:0/96\n", 1),
    ("a1 ::ffff:127.0.0.1/8\n", 1),
    ("a1 127.0.0.1 ::ffff:127.0.0.1\n", 1),
    ("\xef\xbb\xbfa1 127.0.0.1\n", 1),
    (f"{'a' * 33} 127.0.0.1\n", 1),
    ("a1 127.0.0.1\nb2 127.0.0.1\n\xff 127.0.0.1\n", 3),
)


def served(folder, way, exchanges, *options):
    """A server with the list of the case's folder."""
    opening = ("resumed 0 takes",) if "--journal" in way else ()
    shown = (f"{LOCAL}:{free_port()}",) if SHOWN in way else ()
    words = ("--exchanges", str(exchanges), "--allow", str(folder.parent / "list"), *way, *shown, *options)
    return Server(folder, *words, opening=opening)


def linked(port, source):
    """A link from this address of the machine."""
    return socket.create_connection((LOCAL, port), timeout=20, source_address=(source, 0))


def says(peer, said, count):
    peer.sendall(said)
    return hear(peer, count)


def case_rows(folder):
    """A name is taken from the addresses that a line of it has, and from no other."""
    for index, (text, name, allowed) in enumerate(ROWS):
        place = folder / f"row{index}"
        place.mkdir()
        (folder / "list").write_text(text)
        server = served(place, WAYS[index % len(WAYS)], 2)
        key = name.encode()
        ask = bytes([6 + len(key)]) + b"\0\0\0\x06" + bytes([len(key)]) + key + b"\x07\0\0\0"
        message = bytes([16 + len(key)]) + b"\0\0\0\x01" + bytes([len(key)]) + key + OPEN[8:]
        for source in (LOCAL, OTHER):
            with linked(server.port, source) as peer:
                peer.sendall(message + ask + BYE_FRAME)
                found = hear(peer, 2 * len(key) + 26 + (0 if source in allowed else 4))
            is_taken = found[4] == 0x81 if found else None
            TALLY.same(f"{text!r}: {name} from {source}", is_taken, source in allowed)
        TALLY.same(f"{text!r}: the server", server.end()[0], 0)


def case_replies(folder):
    """What isn't allowed is answered TableFull, an ask of it Next 0, and nothing is kept of it; the others go on."""
    for way in WAYS:
        name = " ".join(("replies", *way))
        place = folder / "-".join(("replies", *way))
        place.mkdir()
        (folder / "list").write_text(f"a1 {OTHER}\n")
        server = served(place, way, 3, "--log")
        with linked(server.port, LOCAL) as peer:
            said = says(peer, OPEN + BLOCK + CLOSE + ASK + BYE_FRAME, 4 * len(NEXT_0))
            TALLY.same(f"{name}: turned away", said, b"".join(FULL) + NEXT_0)
            port = peer.getsockname()[1]
        TALLY.same(f"{name}: no file", [path.name for path in place.iterdir() if path.suffix == ".wav"], [])
        with linked(server.port, OTHER) as peer:
            TALLY.same(f"{name}: opened", says(peer, OPEN + ASK, len(STORED[0] + NEXT_1)), STORED[0] + NEXT_1)
            if "--recorders" in way:
                with linked(server.port, LOCAL) as second:
                    said = says(second, BLOCK + ASK + BYE_FRAME, 2 * len(NEXT_0))
                    TALLY.same(f"{name}: beside the recorder", said, FULL[1] + NEXT_0)
            said = says(peer, BLOCK + CLOSE + BYE_FRAME, len(STORED[1] + STORED[2]))
            TALLY.same(f"{name}: the recorder goes on", said, STORED[1] + STORED[2])
        if "--recorders" not in way:
            with linked(server.port, LOCAL) as second:
                said = says(second, BLOCK + ASK + BYE_FRAME, 2 * len(NEXT_0))
                TALLY.same(f"{name}: after the recorder", said, FULL[1] + NEXT_0)
        status, _, faults = server.end()
        TALLY.same(f"{name}: the status", status, 0)
        lines = logs.untimed(name, faults)
        TALLY.same(f"{name}: its messages are counted", [line for line in lines if "messages 3" in line][0],
                   f"peer {LOCAL}:{port} names a1 end Bye messages 3 bytes 46")
        if "--journal" in way:
            TALLY.same(f"{name}: the log", lines.count(f"peer {LOCAL}:{port} refused a1"), 1)


def asked(port):
    """What a server says of itself at this port."""
    with urllib.request.urlopen(f"http://{LOCAL}:{port}/takes.json", timeout=20) as answer:
        return json.load(answer)


def case_shown(folder):
    """The status shows the peer that a name is taken from, not one that was turned away. What that sent has a count of its
    own, in which asks are and BYE isn't, and no part in the others."""
    (folder / "list").write_text(f"a1 {OTHER}\n")
    place, shown = folder / "place", free_port()
    place.mkdir()
    words = ("--recorders", "2", "--journal", "--status", f"{LOCAL}:{shown}", "--allow", str(folder / "list"))
    server = Server(place, "--exchanges", "2", *words, opening=("resumed 0 takes",))
    with linked(server.port, LOCAL) as kept_out, linked(server.port, OTHER) as peer:
        TALLY.same("shown: none so far", asked(shown)["turned_away"], 0)
        TALLY.same("shown: turned away", says(kept_out, OPEN + ASK + BLOCK, 3 * len(NEXT_0)), FULL[0] + NEXT_0 + FULL[1])
        TALLY.same("shown: opened", says(peer, OPEN, len(STORED[0])), STORED[0])
        status = asked(shown)
        found = [(take["name"], take["peer"]) for take in status["takes"]]
        TALLY.same("shown: the peer", found, [("a1", f"{OTHER}:{peer.getsockname()[1]}")])
        counted = {it["kind"]: it["count"] for it in status["messages"] if it["count"]}
        TALLY.same("shown: the messages", (counted, status["turned_away"]), ({"OPEN": 1}, 3))
        with urllib.request.urlopen(f"http://{LOCAL}:{shown}/metrics", timeout=20) as answer:
            lines = answer.read().decode().splitlines()
        TALLY.holds("shown: the counter", "bwingest_turned_away_total 3" in lines, "another count")
        kept_out.sendall(BYE_FRAME)
        peer.sendall(BYE_FRAME)
    TALLY.same("shown: the server", server.end()[0], 0)


def case_refused(folder):
    """A list with a bad line is refused at the start, by the number of the first one; nothing is made."""
    for text, line in REFUSED:
        place = folder / "place"
        place.mkdir(exist_ok=True)
        (folder / "list").write_bytes(text.encode("latin-1"))
        words = ("serve", "--listen", f"{LOCAL}:{free_port()}", "--folder", str(place), "--allow", str(folder / "list"))
        status, out, faults = run(*words)
        TALLY.same(f"{text!r}: the status", (status, out), (1, ""))
        TALLY.holds(f"{text!r}: the line", faults.startswith(f"{folder}/list:{line}: "), faults)
        TALLY.same(f"{text!r}: one line", faults.count("\n"), 1)
        TALLY.same(f"{text!r}: nothing is made", list(place.iterdir()), [])


def case_unread(folder):
    """A list that isn't there, is no file, or has more than 1 MiB, is a fault of the outside; nobody writes to the pipe."""
    place = folder / "place"
    place.mkdir()
    (folder / "long").write_bytes(b"\n" * (2**20 + 1))
    os.mkfifo(folder / "pipe")
    (folder / "link").symlink_to("pipe")
    rows = (
        (folder / "none", reason(2)),
        (folder, reason(21)),
        (folder / "long", "file too large"),
        (folder / "pipe", NO_FILE),
        (folder / "link", NO_FILE),
        (pathlib.Path("/dev/zero"), NO_FILE),
    )
    for path, cause in rows:
        words = ("serve", "--listen", f"{LOCAL}:{free_port()}", "--folder", str(place), "--allow", str(path))
        status, out, faults = run(*words)
        TALLY.same(f"{path.name}: the status", (status, out), (3, ""))
        TALLY.holds(f"{path.name}: the line", str(path) in faults and cause in faults, faults)


def case_longest(folder):
    """A list of 1 MiB is read to its last line."""
    line = b"a1 127.0.0.1"
    (folder / "list").write_bytes(b"\n" * (2**20 - len(line)) + line)
    place = folder / "place"
    place.mkdir()
    server = served(place, (), 1)
    with linked(server.port, LOCAL) as peer:
        TALLY.same("1 MiB: opened", says(peer, OPEN + BYE_FRAME, len(STORED[0])), STORED[0])
    TALLY.same("1 MiB: the server", server.end()[0], 0)


CASES = [case_rows, case_replies, case_shown, case_refused, case_unread, case_longest]

if __name__ == "__main__":
    sys.exit(run_cases(CASES, LONGEST_RUN))
