#!/usr/bin/env python3
"""A recorder's client with libbwi's shared library: sends a file of samples as a take, over as many links as it takes.

  send.py ../release/c/x86-64/libbwi.so.1 HOST PORT NAME RATE CHANNELS BITS FILE

It does what send.c does, and has its statuses.
"""
import ctypes
import pathlib
import socket
import sys
import time

WINDOW, LONGEST_HEAD = 16, 52
NO_REPLY, BAD_FRAME, COUNTED, NOTED = 4, 3, 1, 3
STORED, HELD, TOO_FAR, CONFLICT, NEXT = 0, 32, 33, 34, 39


class Sender(ctypes.Structure):
    _fields_ = [
        ("name", ctypes.c_uint8 * 32),
        *((name, ctypes.c_uint32) for name in ("name_len", "offered", "settled", "stored")),
        ("verdicts", ctypes.c_uint8 * 16),
    ]


class Reply(ctypes.Structure):
    _fields_ = [
        *((name, ctypes.c_uint32) for name in ("kind", "heard", "number", "code", "next")),
        ("offset", ctypes.c_uint64),
    ]


def library(path):
    """The calls of the library, each with its types."""
    calls, size, data = ctypes.CDLL(path), ctypes.c_size_t, ctypes.c_char_p
    sender, room = ctypes.POINTER(Sender), (ctypes.c_char_p, ctypes.c_size_t)
    number, short = ctypes.c_uint32, ctypes.c_uint16
    for name, result, *words in (
        ("bwi_begin", ctypes.c_bool, sender, data, size, number),
        ("bwi_open_head", size, sender, number, short, short, data, size, *room),
        ("bwi_block_head", size, sender, data, size, *room),
        ("bwi_close", size, sender, ctypes.c_uint64, *room),
        ("bwi_ask", size, sender, *room),
        ("bwi_bye", size, *room),
        ("bwi_hear", size, sender, data, size, ctypes.POINTER(Reply)),
        ("bwi_is_pending", ctypes.c_bool, sender, number),
    ):
        call = getattr(calls, name)
        call.restype, call.argtypes = result, words
    return calls


class Broken(Exception):
    """The link is broken, or the server couldn't take a request now."""


class Recorder:
    """A take of these samples: request 0 is the OPEN, each block is one, and the CLOSE is the last."""

    def __init__(self, calls, name, rate, channels, bits, samples):
        self.calls, self.name = calls, name.encode()
        self.format = rate, channels, bits
        self.frame = channels * ((bits + 7) // 8)
        step = 32768 // self.frame * self.frame
        self.samples = samples
        self.blocks = [samples[at : at + step] for at in range(0, len(samples), step)]
        self.total = len(self.blocks) + 2
        self.sender, self.out, self.held, self.kept = Sender(), ctypes.create_string_buffer(LONGEST_HEAD), b"", {}
        if not self.begin(0):
            raise ValueError("no name of a take")

    def begin(self, number):
        return self.calls.bwi_begin(self.sender, self.name, len(self.name), number)

    def hear(self, link):
        """The next reply."""
        reply = Reply()
        while not (used := self.calls.bwi_hear(self.sender, self.held, len(self.held), reply)):
            if reply.kind == NO_REPLY or not (piece := link.recv(4096)):
                raise Broken
            self.held += piece
        self.held = self.held[used:]
        return reply

    def ask(self, link):
        """Asks which number comes next, and begins there. The CLOSE is always sent, so that its verdict is heard."""
        link.sendall(self.out.raw[: self.calls.bwi_ask(self.sender, self.out, LONGEST_HEAD)])
        reply = self.hear(link)
        while reply.heard != NOTED or reply.code != NEXT:
            reply = self.hear(link)
        self.begin(min(reply.next, self.total - 1))

    def offer(self):
        """The frame of the next request, which is kept until it is settled."""
        number, calls, payload = self.sender.offered, self.calls, b""
        if number == 0:
            length = calls.bwi_open_head(self.sender, *self.format, b"", 0, self.out, LONGEST_HEAD)
        elif number == self.total - 1:
            length = calls.bwi_close(self.sender, len(self.samples) // self.frame, self.out, LONGEST_HEAD)
        else:
            payload = self.blocks[number - 1]
            length = calls.bwi_block_head(self.sender, payload, len(payload), self.out, LONGEST_HEAD)
        self.kept[number % WINDOW] = self.out.raw[:length] + payload
        return self.kept[number % WINDOW]

    def exchange(self, link):
        """Sends over one link until all is settled."""
        for number in range(self.sender.settled, self.sender.offered):
            if self.calls.bwi_is_pending(self.sender, number):
                link.sendall(self.kept[number % WINDOW])
        while self.sender.settled < self.total:
            while self.sender.offered < min(self.total, self.sender.settled + WINDOW):
                link.sendall(self.offer())
            reply = self.hear(link)
            if reply.heard == COUNTED and reply.code != STORED:
                sys.exit(f"send: request {reply.number} refused, code {reply.code}")
            if reply.kind == 2 and reply.code in (TOO_FAR, CONFLICT):
                sys.exit("send: the server has another take of this name")
            if reply.kind == BAD_FRAME or (reply.kind == 2 and reply.code != HELD):
                raise Broken
        link.sendall(self.out.raw[: self.calls.bwi_bye(self.out, LONGEST_HEAD)])

    def send(self, host, port):
        """Sends all of it, over one link after another."""
        begun, rest = False, 0.1
        while self.sender.settled < self.total or not begun:
            settled = self.sender.settled
            try:
                with socket.create_connection((host, port), 10) as link:
                    self.held = b""
                    if not begun:
                        self.ask(link)
                        begun = True
                    self.exchange(link)
            except (OSError, Broken):
                time.sleep(rest)
                rest = 0.1 if self.sender.settled > settled else min(2 * rest, 5)


def main(words):
    path, host, port, name, *numbers, file = words
    recorder = Recorder(library(path), name, *map(int, numbers), pathlib.Path(file).read_bytes())
    recorder.send(host, int(port))
    print(f"settled {recorder.sender.settled} of {recorder.total} requests")


if __name__ == "__main__":
    main(sys.argv[1:])
