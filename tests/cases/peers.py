"""What `serve` and `send` do where the other side says garbage or nothing, hears nothing, or breaks off."""
import contextlib
import socket
import threading
import time

from kit.network import close_at_once, connect, connect_deaf, ends_by_signal, hear, hear_all, LOCAL, LONGEST_WAIT, MANY_ASKS
from kit.network import same_exchanges, same_file, same_settled, send, Server, serves_on, stopped, TALLY
from kit.takes import ASK, bad_frame, little, message, NEXT, notice, OPEN, STORED, Take, verdict


def case_garbage(folder):
    """Bytes that are no message follow one that is: the reply has the first reason and its place."""
    asked = message("zz", 0, bytes([ASK]))
    answer = notice("zz", 0, NEXT, 0)
    ask_of = bytes([ASK, 2]) + b"zz"
    garbage = [
        (1, bytes(4)),
        (1, b"GET / HTTP/1.1\r\nHost: field\r\n\r\n"),
        (1, little(32_807, 4)),
        (6, little(8, 4) + ask_of),
        (6, b"\x08\x00"),
        (2, little(1, 4) + b"\x07"),
        (5, little(2, 4) + b"\x09\x00"),
        (3, little(8, 4) + bytes([ASK, 2]) + b"zZ" + bytes(4)),
        (3, little(7, 4) + bytes([ASK, 0]) + bytes(5)),
        (4, little(8, 4) + ask_of + little(16_777_216, 4)),
        (5, little(9, 4) + ask_of + bytes(5)),
        (5, message("zz", 0, bytes([OPEN]) + bytes(9))),
    ]
    server = Server(folder, "--until-stopped")
    for at, (number, said) in enumerate(garbage):
        with connect(server.port) as peer:
            peer.sendall(asked + said)
            peer.shutdown(socket.SHUT_WR)
            TALLY.same(f"garbage {said[:16]!r}", hear_all(peer), answer + bad_frame(number, len(asked)))
        same_exchanges(f"garbage {said[:16]!r}: the exchange", server.lines(1), ["BadFrame"], at)
    with connect(server.port) as peer, contextlib.suppress(OSError):
        peer.sendall(b"\xff" * 2_000_000)
    same_exchanges("much garbage", server.lines(1), ["BadFrame"], len(garbage))
    serves_on("garbage", server, folder, len(garbage) + 1)
    stopped("garbage: the server", server)


def case_silent_peer(folder):
    server = Server(folder, "--until-stopped", "--timeout", "1")
    with connect(server.port):
        begun = time.monotonic()
        same_exchanges("a silent peer", server.lines(1), ["ReadFault"])
        waited = time.monotonic() - begun
    TALLY.holds("a silent peer", waited > 0.5, f"its exchange ends after {waited:.2f} s, not after one")
    serves_on("a silent peer", server, folder, 1)
    ends_by_signal("a silent peer", server)


def case_deaf_peer(folder):
    """A peer asks again and again, and reads no reply."""
    server = Server(folder, "--until-stopped", "--timeout", "1")
    with connect_deaf(server.port, LONGEST_WAIT) as peer:
        until = time.monotonic() + LONGEST_WAIT
        with contextlib.suppress(OSError):
            while time.monotonic() < until:
                peer.sendall(MANY_ASKS)
        same_exchanges("a deaf peer", server.lines(1), ["WriteFault"])
    serves_on("a deaf peer", server, folder, 1)
    ends_by_signal("a deaf peer", server)


def case_cut_client(folder):
    """After a client breaks off inside a frame, all that was reported to it as stored is in the file."""
    server = Server(folder, "--until-stopped")
    for at, (end, is_abrupt) in enumerate([("BadFrame", False), ("ReadFault", True)]):
        take = Take(f"cut-{at}", 200_000, 12)
        first = take.FIRST_BLOCK + 3
        messages = take.messages()
        stored = b"".join(verdict(take.name, number, STORED) for number in range(first))
        with connect(server.port) as peer:
            peer.sendall(b"".join(messages[:first]) + messages[first][:20_000])
            TALLY.same(f"{end}: the verdicts", hear(peer, len(stored)), stored)
            if is_abrupt:
                close_at_once(peer)
            else:
                peer.shutdown(socket.SHUT_WR)
                place = sum(map(len, messages[:first]))
                TALLY.same(f"{end}: the last reply", hear_all(peer), bad_frame(6, place))
        same_exchanges(f"{end}: the exchange", server.lines(1), [end], at)
        same_file(end, folder, take, blocks=3)
    serves_on("a cut client", server, folder, 2)
    ends_by_signal("a cut client", server)


def case_bad_servers(folder):
    """The rounds of a sender end if the server says nothing, or garbage."""
    take = Take("field-9", 3_000, 15)
    with socket.create_server((LOCAL, 0)) as listener:
        begun = time.monotonic()
        output = send(listener.getsockname()[1], take, "--rounds", "2", "--timeout", "1")
        waited = time.monotonic() - begun
    same_settled("a silent server", output, 0, 0, 3)
    TALLY.holds("a silent server", waited > 1.5, f"two rounds take {waited:.2f} s, not two seconds")
    with socket.create_server((LOCAL, 0)) as listener:
        threading.Thread(target=answer_garbage, args=(listener,), daemon=True).start()
        same_settled("a server of garbage", send(listener.getsockname()[1], take, "--rounds", "3"), 0, 0, 3)


def answer_garbage(listener):
    with contextlib.suppress(OSError):
        while True:
            peer, _ = listener.accept()
            with peer, contextlib.suppress(OSError):
                peer.sendall(b"HTTP/1.1 400 Bad Request\r\n\r\n")
                peer.shutdown(socket.SHUT_WR)
                hear_all(peer)
