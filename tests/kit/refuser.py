"""Runs a program and refuses one of its calls, by ptrace.

System calls count if the program makes them itself (tracer.py); the refused one isn't made, and fails with EIO. Growths
of memory are the program's calls of malloc and realloc; the refused one asks for more bytes than there can be, so that
the C library refuses it.

Needs what tracer.py needs, and a program that takes malloc from a shared C library.
"""
import functools
import os
import pathlib
import signal
import struct

from kit.tracer import CONT, PEEKDATA, PEEKUSER, POKEDATA, ptrace, RDI, RIP, RSI, Traced

# The system calls of each kind, by their numbers on x86-64.
CALLS = {
    "read": (0,),
    "write": (1,),
    "open": (2, 257),  # open, openat
    "seek": (8,),
    "connect": (42,),
    "send": (44,),
    "receive": (45,),
    "sync": (74, 75),  # fsync, fdatasync
    "cut": (77,),
    "rename": (82, 264, 316),
    "lock": (73,),
    "list": (217,),
    "stat": (4, 5, 262, 332),
}
GROWTHS = {"malloc": RDI, "realloc": RSI}  # and the register of the size
NOWHERE = 0x100  # an address in the first page, in which Linux keeps nothing


class File:
    """The file of a program: its entry, and what it takes from libraries."""

    LOAD, DYNAMIC = 1, 2  # kinds of segments
    STRINGS, SYMBOLS = 5, 6  # tags of the dynamic segment
    TABLES = ((7, 8), (23, 2))  # tags of relocations, and of their sizes in bytes: of data, of calls
    TAKES_ADDRESS = (6, 7)  # GLOB_DAT, JUMP_SLOT

    def __init__(self, path):
        self.bytes = pathlib.Path(path).read_bytes()
        if self.bytes[:5] != b"\x7fELF\x02" or self.bytes[18:20] != b"\x3e\0":
            raise SystemExit(f"{path} is no program for x86-64")
        self.entry, headers = struct.unpack_from("<QQ", self.bytes, 24)
        (count,) = struct.unpack_from("<H", self.bytes, 56)
        self.segments = [struct.unpack_from("<IIQQQQQQ", self.bytes, headers + 56 * number) for number in range(count)]

    def part(self, place, length):
        """This many bytes at an address, which counts from where the program is loaded."""
        loaded = ((it[2], it[3], it[5]) for it in self.segments if it[0] == self.LOAD)
        at = next(offset + place - start for offset, start, size in loaded if start <= place < start + size)
        return self.bytes[at : at + length]

    def slots(self):
        """The names of functions of libraries, each with a slot in which the loader puts its address."""
        dynamic = next((it for it in self.segments if it[0] == self.DYNAMIC), None)
        tags = dict(struct.iter_unpack("<QQ", self.part(dynamic[3], dynamic[5]))) if dynamic else {}
        tables = [self.part(tags[table], tags[size]) for table, size in self.TABLES if table in tags]
        for slot, info, _ in struct.iter_unpack("<QQq", b"".join(tables)):
            if info & 0xFFFF_FFFF in self.TAKES_ADDRESS:
                (name,) = struct.unpack("<I", self.part(tags[self.SYMBOLS] + 24 * (info >> 32), 4))
                yield self.part(tags[self.STRINGS] + name, 64).split(b"\0")[0].decode(), slot


@functools.lru_cache(None)
def entry_and_growths(path):
    """The program's entry, and the register of the size with each slot of a function that gives memory."""
    file = File(path)
    return file.entry, [(GROWTHS[name], slot) for name, slot in file.slots() if name in GROWTHS]


class Refused(Traced):
    """A running program of which the call of a kind with this number, from 1 on, is refused, or none if it is 0.

    `seen` is the number of its calls of the kind, once it has ended.
    """

    def __init__(self, words, kind, number, **pipes):
        self.kind, self.number, self.seen = kind, number, 0
        # The loader fills all slots at the start, so that it doesn't overwrite one later.
        super().__init__(words, self, env={**os.environ, "LD_BIND_NOW": "1"}, **pipes)

    # The methods below run in the tracer's thread.

    def is_refused(self):
        """Counts a call of the kind."""
        self.seen += 1
        return self.seen == self.number

    def before(self, call):
        if call.number in CALLS[self.kind] and self.is_refused():
            call.refuse()

    def after(self, call):
        pass

    def follow_from(self, entry):
        if self.kind != "growth":
            return super().follow_from(entry)
        entry_in_file, growths = entry_and_growths(self.args[0])
        return self.follow_growths(self.hooked(growths, entry - entry_in_file))

    def hooked(self, growths, offset):
        """Makes each growth jump to an unmapped address of its own.

        By that address, the result has the address of the real function and the register of the size.
        """
        if not growths:
            raise SystemExit(f"{self.args[0]} takes no memory from a shared C library")
        wanted = {}
        for nowhere, (register, slot) in enumerate(growths, NOWHERE):
            wanted[nowhere] = ptrace(PEEKDATA, self.pid, offset + slot), register
            ptrace(POKEDATA, self.pid, offset + slot, nowhere)
        return wanted

    def follow_growths(self, wanted):
        stop = self.resume(CONT)
        while True:
            place = ptrace(PEEKUSER, self.pid, 8 * RIP)
            if stop == signal.SIGSEGV and place in wanted:
                function, register = wanted[place]
                if self.is_refused():
                    self.put(register, -1)
                self.put(RIP, function)
                stop = 0
            stop = self.resume(CONT, stop)
