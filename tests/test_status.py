#!/usr/bin/env python3
"""Runs `serve --recorders --status` of the built program, and asks it as operators, browsers and strangers would.

What is shown is compared with what was sent, and with `takes --json`. Each wait has a
limit, and what was started is ended. The program is the first argument, or the one of this repository; --requests=N
sends N made-up requests (default 10000). `promtool` is asked too, where it is installed. Prints what differs, and last
'N passed, M failed'.
"""
import base64
import contextlib
import errno
import hashlib
import html
import itertools
import json
import os
import random
import re
import shutil
import signal
import socket
import subprocess
import sys
import threading
import time

sys.dont_write_bytecode = True  # nothing is left beside this script
from kit.network import connect, ends_by_signal, free_port, hear_all, LOCAL, LONGEST_WAIT, narrow, run, run_cases
from kit.network import same_file, same_settled, send, send_all, Server, stopped, TALLY, wait_until
from kit.repository import ROOT
from kit.takes import ASK, BYE_FRAME, DELAYED_STORE, message, notice, STORED, Take, verdict
from kit.watcher import Fault, Watcher

LONGEST_RUN = 240  # seconds, for all of it
LONGEST_REQUEST = 8_192
OPERATORS = 32
STRANGERS = 4  # who ask at once
ENDED = 900  # connections, of whose lines a narrow pipe has no room for all
CAUSES = ("Bye", "EndOfInput", "BadFrame", "ReadFault", "WriteFault", "NotKept", "TurnLimit", "Memory", "Idle")
FIELDS = {
    "x-content-type-options": "nosniff",
    "x-frame-options": "DENY",
    "referrer-policy": "no-referrer",
    "cache-control": "no-store",
    "allow": "GET, HEAD",
    "connection": "close",
}
TYPES = {
    "/": "text/html; charset=utf-8",
    "/takes.json": "application/json",
    "/metrics": "text/plain; version=0.0.4; charset=utf-8",
    "/healthz": "text/plain; charset=utf-8",
}
REQUESTS = next((int(word[11:]) for word in sys.argv if word.startswith("--requests=")), 10_000)


class Shown(Server):
    """A server that operators may ask at `status`."""

    def __init__(self, folder, *options, **more):
        self.status = free_port()
        super().__init__(folder, "--status", f"{LOCAL}:{self.status}", *options, **more)

    def bytes_for(self, request, pause=0):
        """What comes for these bytes, in pieces of one if there is a pause between them, until the server closes."""
        with connect(self.status) as peer:
            pieces = [request] if not pause else [request[at : at + 1] for at in range(len(request))]
            with contextlib.suppress(OSError):
                for piece in pieces:
                    peer.sendall(piece)
                    time.sleep(pause)
            return all_of(peer)

    def ask(self, path, method="GET"):
        """The status, the fields and the body of a response."""
        return parts(self.bytes_for(f"{method} {path} HTTP/1.1\r\nHost: {LOCAL}\r\n\r\n".encode()))

    def values(self):
        return json.loads(self.ask("/takes.json")[2])


def all_of(peer):
    """All that comes until the peer closes or resets the connection."""
    peer.settimeout(LONGEST_WAIT)
    found = b""
    with contextlib.suppress(ConnectionResetError):
        while piece := peer.recv(65_536):
            found += piece
    return found


def parts(response):
    head, _, body = response.partition(b"\r\n\r\n")
    first, *lines = head.decode("latin-1").split("\r\n")
    fields = [line.partition(": ") for line in lines]
    return first.removeprefix("HTTP/1.1 "), {name.lower(): value for name, _, value in fields}, body


def same_head(name, fields, body, kind):
    """Each response has these fields, and says its length."""
    wanted = {**FIELDS, "content-type": kind, "content-length": str(len(body))}
    found = {key: value for key, value in fields.items() if key != "content-security-policy"}
    TALLY.same(f"{name}: the fields", found, wanted)


def counts(values, kind):
    return {one["kind"]: one["count"] for one in values[kind] if one["count"]}


def by_cause(**ends):
    """How many connections ended, by each cause."""
    return {**dict.fromkeys(CAUSES, 0), **ends}


def same_ended(name, server, wanted):
    """The counts of ends, as JSON and as a counter whose sum is how many ended."""
    values, found = server.values(), metrics(server.ask("/metrics")[2].decode())
    TALLY.same(f"{name}: by cause", values["ended_by"], wanted)
    TALLY.same(f"{name}: in all", values["ended"], sum(wanted.values()))
    family = {key: found[key] for key in found if key.startswith("bwingest_connections_ended_total")}
    TALLY.same(f"{name}: the counter", family,
               {f'bwingest_connections_ended_total{{cause="{cause}"}}': count for cause, count in wanted.items()})


def metrics(text):
    lines = [line.rpartition(" ") for line in text.splitlines() if not line.startswith("#")]
    return {name: int(value) for name, _, value in lines}


def case_values(folder):
    """Two takes, one of them closed: each path shows what `takes` does, and what was sent and replied."""
    server = Shown(folder, "--until-stopped", "--recorders", "8", "--journal", opening=("resumed 0 takes",))
    closed, opened = Take("closed-1", 90_000, 1), Take("opened_2", 60_000, 2)
    count = len(closed.requests())
    same_settled("values: a sender", send(server.port, closed), count, count, 0)
    begun = opened.messages()[:-1]
    with connect(server.port) as peer:
        peer.sendall(b"".join(begun))
        wait_until(lambda: server.values()["takes"][-1]["next"] == len(begun), "the second take doesn't come")
        address = "{}:{}".format(*peer.getsockname())
        values = server.values()
        TALLY.same("values: the peer", values["takes"][-1]["peer"], address)
        TALLY.same("values: connections", (values["connections"], values["places"]), (1, 8))
        same_takes(folder, values, closed, opened)
        same_counts(closed, begun, values)
        same_metrics(server, values)
        same_page(server, values)
        peer.sendall(BYE_FRAME)
    ends_by_signal("values", server)
    is_resumed(folder, closed, opened)


def is_resumed(folder, closed, opened):
    """A server that goes on shows how many takes its folder had, each of them once it is asked for, and nothing that
    another one counted."""
    server = Shown(folder, "--until-stopped", "--recorders", "8", "--journal", opening=("resumed 2 takes",))
    values = server.values()
    TALLY.same("resumed: how many", values["resumed"], 2)
    TALLY.same("resumed: none is known yet", values["takes"], [])
    with connect(server.port) as peer:
        peer.sendall(b"".join(message(take.name, 0, bytes([ASK])) for take in (closed, opened)) + BYE_FRAME)
        hear_all(peer)
    wait_until(lambda: not server.values()["connections"], "the recorder doesn't go")
    values = server.values()
    found = [(take["name"], take["state"], take["quiet_ms"]) for take in values["takes"]]
    TALLY.same("resumed: the takes", found, [(closed.name, "closed", None), (opened.name, "open", None)])
    TALLY.same("resumed: the verdicts", counts(values, "verdicts"), {})
    server.stop()


def same_takes(folder, values, closed, opened):
    """What was sent of each take, and what `takes --json` prints of it."""
    frames = [len(take.samples) // take.ALIGN for take in (closed, opened)]
    wanted = [
        [take.name, state, 48_000, 1, 24, count, 1_000 * count // 48_000, sent, 0, 0, 0]
        for take, state, count, sent in (
            (closed, "closed", frames[0], len(closed.requests())),
            (opened, "open", frames[1], len(opened.requests()) - 1),
        )
    ]
    keys = ("name", "state", "rate", "channels", "bits", "frames", "ms", "next", "held", "refused", "delayed")
    TALLY.same("values: of each take", [[take[key] for key in keys] for take in values["takes"]], wanted)
    quiet = [take["quiet_ms"] for take in values["takes"]]
    TALLY.holds("values: quiet", all(0 <= ms <= values["uptime_ms"] for ms in quiet), f"{quiet}")
    since = time.time() - values["since"]
    TALLY.holds("values: since", 0 <= since <= LONGEST_RUN, f"{since} seconds ago")
    TALLY.holds("values: memory", 100_000 < values["memory"] < 2**32, f"{values['memory']} bytes")
    _, out, _ = run("takes", "--folder", str(folder), "--json")
    shared = ("name", "state", "frames", "ms", "next", "rate")
    wanted = [[json.loads(line)[key] for key in shared] for line in out.splitlines()]
    TALLY.same("values: takes", [[take[key] for key in shared] for take in values["takes"]], wanted)


def same_counts(closed, begun, values):
    """How many messages were sent, their bytes, and that each was stored."""
    sent = len(closed.requests()) + len(begun)
    TALLY.same("values: bytes", values["bytes"], sum(len(one) - 4 for one in (*closed.messages(), *begun)))
    TALLY.same("values: verdicts", counts(values, "verdicts"), {"Stored": sent})
    kinds = counts(values, "messages")
    TALLY.same("values: messages", sum(kinds.values()) - kinds.get("ASK", 0), sent)
    TALLY.same("values: blocks", kinds["BLOCK"], len(closed.blocks) + len(begun) - 3)
    TALLY.same("values: health", values["health"], "ready")
    TALLY.same("values: lines left out", values["lines_dropped"], 0)
    TALLY.same("values: turned away", values["turned_away"], 0)
    TALLY.same("values: ended", (values["ended"], values["ended_by"]), (1, by_cause(Bye=1)))


def same_metrics(server, values):
    status, fields, body = server.ask("/metrics")
    TALLY.same("metrics: the status", status, "200 OK")
    found = metrics(body.decode())
    for name, wanted in (
        ('bwingest_takes{state="open"}', 1),
        ('bwingest_takes{state="closed"}', 1),
        ("bwingest_connections", values["connections"]),
        ('bwingest_connections_ended_total{cause="Bye"}', values["ended"]),
        ('bwingest_connections_ended_total{cause="Idle"}', 0),
        ("bwingest_message_bytes_total", values["bytes"]),
        ('bwingest_verdicts_total{verdict="Stored"}', counts(values, "verdicts")["Stored"]),
        ("process_start_time_seconds", values["since"]),
        ("bwingest_lines_dropped_total", 0),
        ("bwingest_turned_away_total", values["turned_away"]),
    ):
        TALLY.same(f"metrics: {name}", found.get(name), wanted)
    if promtool := shutil.which("promtool"):
        checked = subprocess.run([promtool, "check", "metrics"], input=body, capture_output=True, check=False)
        TALLY.same("metrics: promtool", (checked.returncode, checked.stdout + checked.stderr), (0, b""))


def same_page(server, values):
    """The page has a row for each take, and names its own style and script by their digests."""
    status, fields, body = server.ask("/")
    text = body.decode()
    rows = re.findall(r'<tr><td data-heading="Take">([^<]*)</td><td data-heading="State">(\w+)</td>', text)
    wanted = [(html.escape(take["name"]), take["state"]) for take in values["takes"]]
    TALLY.same("page: rows", (status, rows), ("200 OK", wanted))
    policy = fields["content-security-policy"]
    for kind in ("style", "script"):
        inner = re.search(f"<{kind}>(.*?)</{kind}>", text, re.DOTALL)[1]
        digest = base64.b64encode(hashlib.sha256(inner.encode()).digest()).decode()
        TALLY.holds(f"page: its {kind}", f"{kind}-src 'sha256-{digest}'" in policy, policy)
    TALLY.holds("page: nothing from outside", not re.search(r"https?://|src=|href=", text), "an address")
    if node := shutil.which("node"):
        same_shown(node, body)


def same_shown(node, page):
    """What the page's script shows of takes, by tests/cases/status_page.mjs: open ones first and closed ones last, or in
    the order of a column; those that have each word of the filter; at most 500."""
    script = str(ROOT / "tests/cases/status_page.mjs")
    ran = subprocess.run([node, script], input=page, capture_output=True, check=False)
    TALLY.same("page: its script runs", (ran.returncode, ran.stderr.decode()), (0, ""))
    found = json.loads(ran.stdout)
    by_state, by_length = "147258036", "036258147"  # seconds of take-N: the last digit of 7 N
    wanted = [
        ["opened", by_state, 9],
        ["by length, 1: ascending", by_length, 9],
        ["by length, 2: descending", by_length[::-1], 9],
        ["by length, 3: none", by_state, 9],
        ["filtered", "175", 3],
    ]
    for (what, names, count), shown in zip(wanted, found["shown"], strict=True):
        takes = [f"take-{it}" for it in names]
        TALLY.same(f"page: {what}", shown, [what, takes, f"{count} of 9"])
    TALLY.same("page: of ten thousand takes", found["many"], [500, "500 of 10000"])
    TALLY.same("page: its title", found["title"], "host:1 - bwingest")
    TALLY.same("page: names that are left out", (found["lost"], found["left_out"]), ("", "bad: a cause, left out"))


def case_ends(folder):
    """Connections are counted by their ends: two that say BYE, three that close, one with a bad frame, one that is silent."""
    server = Shown(folder, "--until-stopped", "--recorders", "4", "--idle", "1")
    TALLY.same("ends: of a new server", server.values()["ended_by"], by_cause())
    for said, count in ((BYE_FRAME, 2), (b"", 3), (b"\xff" * 12, 1)):
        for _ in range(count):
            with connect(server.port) as peer:
                peer.sendall(said)
                peer.shutdown(socket.SHUT_WR)
                hear_all(peer)
    with connect(server.port):
        wait_until(lambda: server.values()["ended"] == 7, "the silent one isn't ended")
    same_ended("ends", server, by_cause(Bye=2, EndOfInput=3, BadFrame=1, Idle=1))
    ends_by_signal("ends", server)


def case_refused(folder):
    """Verdicts and notices of each kind that a recorder can bring about, counted by their names, and by take."""
    (folder / "stood-1.wav").write_bytes(b"a file of before")
    server = Shown(folder, "--until-stopped", "--recorders", "2")
    take, stood = Take("mixed-1", 90_000, 3), Take("stood-1", 300, 4)
    messages = take.messages()
    sent = [
        messages[0],  # Stored
        messages[0],  # Stored again
        messages[1][:-1] + b"!",  # Stored: another description
        messages[1],  # Conflict
        messages[3],  # Held
        message(take.name, 20, bytes([ASK])),  # Next
        message(take.name, 40, take.requests()[3]),  # TooFar
        message(take.name, 2, take.requests()[0]),  # AlreadyOpen, and Stored for the one that waits
        stood.messages()[0],  # NameTaken
        message("late-1", 0, take.requests()[3]),  # NotOpen
    ]
    with connect(server.port) as peer:
        peer.sendall(b"".join(sent))
        wait_until(lambda: len(server.values()["takes"]) == 3, "three takes don't come")
        values = server.values()
    wanted = {"Stored": 4, "AlreadyOpen": 1, "NameTaken": 1, "NotOpen": 1}
    TALLY.same("refused: verdicts", counts(values, "verdicts"), wanted)
    TALLY.same("refused: notices", counts(values, "notices"), {"Conflict": 1, "Held": 1, "Next": 1, "TooFar": 1})
    TALLY.same("refused: messages", counts(values, "messages"), {"OPEN": 4, "BEXT": 2, "BLOCK": 3, "ASK": 1})
    keys = ("name", "state", "frames", "rate", "next", "held", "refused")
    count = len(take.blocks[0]) // take.ALIGN
    rows = [
        ["late-1", "unopened", None, None, 1, 0, 1],
        ["mixed-1", "open", count, 48_000, 4, 0, 1],
        ["stood-1", "stood", None, None, 1, 0, 1],
    ]
    TALLY.same("refused: takes", [[one[key] for key in keys] for one in values["takes"]], rows)
    ends_by_signal("refused", server)


def case_each_path(folder):
    """GET and HEAD of each path."""
    server = Shown(folder, "--until-stopped", "--recorders", "2")
    for path, kind in TYPES.items():
        status, fields, body = server.ask(path)
        TALLY.same(f"GET {path}", status, "200 OK")
        same_head(f"GET {path}", fields, body, kind)
        status, others, nothing = server.ask(path, "HEAD")
        TALLY.same(f"HEAD {path}", (status, nothing), ("200 OK", b""))
        told = {key: value for key, value in others.items() if key != "content-length"}
        wanted = {key: value for key, value in fields.items() if key != "content-length"}
        TALLY.same(f"HEAD {path}: the fields", told, wanted)
        status, fields, _ = server.ask(path + "?x=1")
        TALLY.same(f"GET {path} with a query", (status, fields["content-type"]), ("200 OK", kind))
    with_query = json.loads(server.ask("/takes.json?x=/metrics")[2])
    TALLY.same("a query changes nothing", with_query.keys(), server.values().keys())
    stopped("each path", server)


HOST = b"Host: x\r\n"
REFUSED = (
    ("no host", b"GET / HTTP/1.1\r\n\r\n", "400 Bad Request"),
    ("two hosts", b"GET / HTTP/1.1\r\n" + 2 * HOST + b"\r\n", "400 Bad Request"),
    ("no request", b"\x00\x01\r\n\r\n", "400 Bad Request"),
    ("a message", message("a1", 0, bytes([ASK])), "400 Bad Request"),
    ("a TLS greeting", bytes.fromhex("1603010200010001fc0303"), "400 Bad Request"),
    ("another path", b"GET /takes HTTP/1.1\r\n" + HOST + b"\r\n", "404 Not Found"),
    ("a path upwards", b"GET /../etc/passwd HTTP/1.1\r\n" + HOST + b"\r\n", "404 Not Found"),
    ("a query of another path", b"GET /x?/ HTTP/1.1\r\n" + HOST + b"\r\n", "404 Not Found"),
    ("a query alone", b"GET ?a HTTP/1.1\r\n" + HOST + b"\r\n", "404 Not Found"),
    ("a whole address", b"GET http://x/ HTTP/1.1\r\n" + HOST + b"\r\n", "404 Not Found"),
    ("POST", b"POST / HTTP/1.1\r\n" + HOST + b"Content-Length: 3\r\n\r\nabc", "405 Method Not Allowed"),
    ("DELETE", b"DELETE /takes.json HTTP/1.1\r\n" + HOST + b"\r\n", "405 Method Not Allowed"),
    ("an unknown method", b"BREW /metrics HTTP/1.1\r\n" + HOST + b"\r\n", "405 Method Not Allowed"),
    ("HTTP/2", b"PRI * HTTP/2.0\r\n\r\nSM\r\n\r\n", "505 HTTP Version Not Supported"),
    ("many fields", b"GET / HTTP/1.1\r\n" + HOST + 64 * b"A: b\r\n" + b"\r\n", "431 Request Header Fields Too Large"),
    ("a long field", b"GET / HTTP/1.1\r\nA: " + 9_000 * b"b", "431 Request Header Fields Too Large"),
    ("a long path", b"GET /" + 9_000 * b"b", "431 Request Header Fields Too Large"),
    ("HTTP/1.0 without a host", b"GET /healthz HTTP/1.0\r\n\r\n", "200 OK"),
    ("a host in capitals", b"GET /healthz HTTP/1.1\r\nHOST: x\r\n\r\n", "200 OK"),
    ("63 fields", b"GET /healthz HTTP/1.1\r\n" + HOST + 63 * b"A: b\r\n" + b"\r\n", "200 OK"),
    ("two requests at once", 2 * (b"GET /healthz HTTP/1.1\r\n" + HOST + b"\r\n"), "200 OK"),
)


def case_named_statuses(folder):
    """Anything else gets a status that says what is wrong, and one response."""
    server = Shown(folder, "--until-stopped", "--recorders", "2")
    for name, request, wanted in REFUSED:
        found = server.bytes_for(request)
        status, fields, body = parts(found)
        TALLY.same(name, status, wanted)
        TALLY.same(f"{name}: one response", found.count(b"HTTP/1.1 "), 1)
        same_head(name, fields, body, TYPES["/healthz"])
    unfinished = b"GET / HTTP/1.1\r\nA: ".ljust(LONGEST_REQUEST - 1, b"b")
    with connect(server.status) as peer:
        peer.sendall(unfinished)
        peer.shutdown(socket.SHUT_WR)
        TALLY.same("a byte below the longest head", all_of(peer), b"")
    TALLY.same("the longest head", parts(server.bytes_for(unfinished + b"b"))[0], "431 Request Header Fields Too Large")
    TALLY.same("byte by byte", server.bytes_for(b"GET /healthz HTTP/1.0\r\n\r\n", 0.01)[-6:], b"ready\n")
    for cut in (b"", b"GET", b"GET / HTTP/1.1\r\nHost"):
        with connect(server.status) as peer:
            peer.sendall(cut)
            peer.shutdown(socket.SHUT_WR)
            TALLY.same(f"cut after {cut!r}", all_of(peer), b"")
    stopped("named statuses", server)


def case_slow(folder):
    """Those who send too slowly are closed after five seconds, or once their places are wanted: they hold up nobody."""
    server = Shown(folder, "--until-stopped", "--recorders", "2")
    take = Take("meanwhile", 60_000, 5)
    with contextlib.ExitStack() as peers:
        began = time.monotonic()
        slow = [peers.enter_context(connect(server.status)) for _ in range(OPERATORS)]
        for peer in slow:
            peer.sendall(b"GET / HTTP/1.1\r\n")
        same_settled("slow: a sender meanwhile", send(server.port, take), *2 * [len(take.requests())], 0)
        TALLY.same("slow: one more", server.ask("/healthz")[0], "200 OK")
        TALLY.same("slow: the first makes room", all_of(slow[0]), b"")
        TALLY.holds("slow: at once", time.monotonic() - began < 4, f"{time.monotonic() - began} seconds")
        slow[-1].sendall(f"Host: {LOCAL}\r\n\r\n".encode())
        TALLY.same("slow: the last is answered", parts(all_of(slow[-1]))[0], "200 OK")
        for peer in slow[1:-1]:
            TALLY.same("slow: closed", all_of(peer), b"")
        TALLY.holds("slow: as long", 4 < time.monotonic() - began < 12, f"{time.monotonic() - began} seconds")
    ends_by_signal("slow", server)


def case_idle(folder):
    """Many who say nothing, and many who got their response and stay, hold up no one who asks."""
    server = Shown(folder, "--until-stopped", "--recorders", "2")
    asked = f"GET /healthz HTTP/1.1\r\nHost: {LOCAL}\r\n\r\n".encode()
    with contextlib.ExitStack() as peers:
        began = time.monotonic()
        for round_of in range(3):
            for _ in range(2 * OPERATORS):
                peers.enter_context(connect(server.status))
            asking = [peers.enter_context(connect_asking(server.status, asked)) for _ in range(OPERATORS // 2)]
            found = [peer.recv(12) for peer in asking]
            TALLY.same(f"idle {round_of}: each who asks is answered", found, len(asking) * [b"HTTP/1.1 200"])
        TALLY.holds("idle: at once", time.monotonic() - began < 4, f"{time.monotonic() - began} seconds")
    ends_by_signal("idle", server)


def connect_asking(port, request):
    peer = connect(port)
    peer.sendall(request)
    return peer


def case_unread(folder):
    """Lines that nobody reads are left out and counted; what is shown says how many."""
    server = Shown(folder, "--until-stopped", "--recorders", "4")
    narrow(server.process.stdout)
    for _ in range(ENDED):
        connect(server.port).close()
    wait_until(lambda: server.values()["ended"] == ENDED, "not each connection ends")
    dropped = server.values()["lines_dropped"]
    TALLY.holds("unread: some are left out", 0 < dropped < ENDED, f"{dropped} of {ENDED}")
    found = metrics(server.ask("/metrics")[2].decode()).get("bwingest_lines_dropped_total")
    TALLY.same("unread: the metric", found, dropped)
    row = f"<dt>Lines left out</dt><dd>{dropped}</dd>"
    TALLY.holds("unread: the page", row in server.ask("/")[2].decode(), "says another number")
    lines = server.lines(ENDED - dropped)
    TALLY.same("unread: the others", lines, [f"exchange {at} EndOfInput" for at in range(ENDED - dropped)])
    connect(server.port).close()
    said = [f"left out {dropped} lines", f"exchange {ENDED} EndOfInput"]
    TALLY.same("unread: how many, and the next", server.lines(2), said)
    ends_by_signal("unread", server)


def case_folder(folder):
    """A folder that is gone is shown."""
    (folder / "takes").mkdir()
    server = Shown(folder / "takes", "--until-stopped", "--recorders", "2")
    TALLY.same("a folder", server.ask("/healthz")[::2], ("200 OK", b"ready\n"))
    os.rmdir(folder / "takes")
    TALLY.same("no folder", server.ask("/healthz")[::2], ("503 Service Unavailable", b"the folder can't be used\n"))
    TALLY.same("no folder: the metrics", server.ask("/metrics")[0], "200 OK")
    stopped("no folder", server)


def case_left_out(folder):
    """A name that is left out is shown with its cause until it is served again."""
    words = ("--until-stopped", "--recorders", "2", "--journal")
    take = Take("lost-1", 90_000, 6)
    server = Shown(folder, *words, opening=("resumed 0 takes",))
    with connect(server.port) as peer:
        peer.sendall(b"".join(take.messages()[:3]) + BYE_FRAME)
        hear_all(peer)
    server.stop()
    (folder / "lost-1.wav").rename(folder / "moved")
    server = Shown(folder, *words, opening=("resumed 1 takes",))
    TALLY.same("left out: none was asked for", server.values()["left_out"], [])
    for at in range(2):
        same_exchange(f"left out: put off, {at}", server, take.messages()[3], notice(take.name, 3, DELAYED_STORE, 0))
    TALLY.same("left out: well", server.ask("/healthz")[::2], ("200 OK", b"ready\n"))
    TALLY.same("left out: its cause", server.values()["left_out"], [{"cause": "LostFile", "name": take.name}])
    found = metrics(server.ask("/metrics")[2].decode()).get("bwingest_takes_left_out")
    TALLY.same("left out: the metric", found, 1)
    page = server.ask("/")[2].decode()
    listed = '<ul id="left_out">\n<li>lost-1: LostFile, left out</li>\n</ul>'
    TALLY.holds("left out: the page", listed in page, "doesn't list it")
    (folder / "moved").rename(folder / "lost-1.wav")
    count = len(take.requests())
    same_settled("left out: a sender", send(server.port, take), count, count, 0)
    TALLY.same("left out: served again", server.values()["left_out"], [])
    ends_by_signal("left out", server, f"{folder}/lost-1.journal: LostFile, left out\n")


def case_beginning(folder):
    """The server isn't well once a take can't begin, until one does. What else fails is a matter of its take."""
    faults = [Fault("write b2.journal", errno.ENOSPC, 1)]
    words = ("--until-stopped", "--recorders", "2", "--journal")
    server = Shown(folder, *words, opening=("resumed 0 takes",), watch=lambda: Watcher(*faults))
    begun, failing = Take("a1", 90_000, 7), Take("b2", 300, 8)
    well, unwell = ("200 OK", b"ready\n"), ("503 Service Unavailable", b"the store fails\n")
    for name, said, answer, health in (
        ("begins", begun.messages()[0], verdict("a1", 0, STORED), well),
        ("can't begin", failing.messages()[0], notice("b2", 0, DELAYED_STORE, 0), unwell),
        ("another goes on", begun.messages()[1], verdict("a1", 1, STORED), unwell),
        ("begins then", failing.messages()[0], verdict("b2", 0, STORED), well),
    ):
        same_exchange(f"beginning: {name}", server, said, answer)
        TALLY.same(f"beginning: {name}: healthz", server.ask("/healthz")[::2], health)
    server.observer.faults.append(Fault("write a1.journal", errno.ENOSPC, 1))
    same_exchange("beginning: one that has begun", server, begun.messages()[2], notice("a1", 2, DELAYED_STORE, 2))
    TALLY.same("beginning: one that has begun: healthz", server.ask("/healthz")[::2], well)
    server.stop(signal.SIGKILL)


def same_exchange(name, server, said, answer):
    with connect(server.port) as peer:
        peer.sendall(said + BYE_FRAME)
        TALLY.same(name, hear_all(peer), answer)


def case_unbound(folder):
    """An address that is taken is reported, and nothing is served; so is none that is for operators."""
    with socket.create_server((LOCAL, 0)) as taken:
        address = f"{LOCAL}:{taken.getsockname()[1]}"
        words = ("serve", "--folder", str(folder), "--until-stopped", "--recorders", "2")
        free = f"{LOCAL}:{free_port()}"
        for name, listen, status in (("for operators", free, address), ("for recorders", address, free)):
            found = run(*words, "--listen", listen, "--status", status)
            wanted = (3, "", f"{address} can't be opened: Address already in use (os error 98)\n")
            TALLY.same(f"an address {name} that is taken", found, wanted)


def made_up_request(chance):
    """A request, or bytes that might be one: broken, huge, cut or pipelined."""
    method = chance.choice([b"GET", b"HEAD", b"POST", b"get", b"\xff", b"G E T", chance.randbytes(3)])
    path = chance.choice([*(path.encode() for path in TYPES), b"/x", b"*", chance.randbytes(4), b"/" * 9_000])
    version = chance.choice([b"HTTP/1.1", b"HTTP/1.0", b"HTTP/9.9", b"", chance.randbytes(2)])
    fields = chance.choice([HOST, b"", 80 * b"A: b\r\n", b"Host:\x00\r\n", b"Host : x\r\n", chance.randbytes(40)])
    end = chance.choice([b"\r\n", b"\n", b"", b"\r\n" + chance.randbytes(2_000)])
    whole = method + b" " + path + b" " + version + b"\r\n" + fields + end
    return whole * chance.choice([1, 1, 1, 3]) if chance.random() < 0.8 else whole[: chance.randrange(len(whole) + 1)]


def case_made_up(folder):
    """Made-up requests never hold, end or change the exchange of a recorder."""
    server = Shown(folder, "--until-stopped", "--recorders", "8")
    strangers = [threading.Thread(target=bother, args=(server, at)) for at in range(STRANGERS)]
    for stranger in strangers:
        stranger.start()
    for batch in itertools.cycle(range(31)):  # of eight names each, so that a place stays free; then they are sent again
        takes = [Take(f"beside-{batch}-{at}", 60_000, 8 * batch + at) for at in range(8)]
        outputs = send_all(server.port, takes, "--rounds", "1000", "--timeout", "20")
        for take, output in zip(takes, outputs):
            same_settled(f"made up: {take.name}", output, *2 * [len(take.requests())], 0)
            same_file(f"made up: {take.name}", folder, take)
        if not any(stranger.is_alive() for stranger in strangers):
            break
    TALLY.same("made up: still well", server.ask("/healthz")[0], "200 OK")
    ends_by_signal("made up", server)


def bother(server, seed):
    chance = random.Random(seed)
    for _ in range(REQUESTS // STRANGERS):
        request = made_up_request(chance)
        with contextlib.suppress(OSError), connect(server.status) as peer:
            peer.sendall(request)
            peer.shutdown(socket.SHUT_WR)
            found = all_of(peer)
            is_response = not found or found.startswith(b"HTTP/1.1 ")
            TALLY.holds("made up", is_response and found.count(b"HTTP/1.1 ") <= 1, f"{request[:80]!r} got {found[:80]!r}")


if __name__ == "__main__":
    cases = (
        *(case_values, case_ends, case_refused, case_each_path, case_named_statuses, case_slow, case_idle, case_unread),
        *(case_folder, case_left_out, case_beginning, case_unbound, case_made_up),
    )
    sys.exit(run_cases(cases, LONGEST_RUN))
