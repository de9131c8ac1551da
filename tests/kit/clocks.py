"""Runs a program whose clock is faster than the real one: nothing is built, and nothing is loaded into the program.

A program asks for the time by code of the kernel (vdso(7)), which makes no system call. Its loader finds that code by a
word of the vector of getauxval(3): without the word libc asks by clock_gettime(2), whose results are changed here. Waits
last as long as without it. Needs what tracer.py needs.
"""
import ctypes
import os
import struct

from kit.tracer import GETREGS, ptrace, REGISTERS, Traced

SYSINFO_EHDR, IGNORED = 33, 1  # of getauxval(3)
RSP = 19  # in `struct user`, in words of eight bytes
CLOCK_GETTIME = 228  # the call's number on x86-64
MONOTONIC = 1
SECOND = 1_000_000_000  # nanoseconds


class FastClock:
    """An observer of a program for which so many seconds pass in one, from when it first looks."""

    def __init__(self, factor):
        self.factor, self.first = factor, None

    def before(self, call):
        pass

    def after(self, call):
        if call.number == CLOCK_GETTIME and call.words[0] == MONOTONIC and call.result == 0:
            seconds, more = struct.unpack("<QQ", call.bytes_at(call.words[1], 16))
            now = seconds * SECOND + more
            self.first = self.first or now
            time = self.first + (now - self.first) * self.factor
            call.write_at(call.words[1], struct.pack("<QQ", *divmod(time, SECOND)))


class Hurried(Traced):
    """A running program that has such a clock."""

    def __init__(self, words, factor, **pipes):
        super().__init__(words, FastClock(factor), **pipes)

    def enter(self):
        """As it begins, its stack has the arguments, the environment and the vector, each ended by a word of 0."""
        registers = (ctypes.c_uint64 * REGISTERS)()
        ptrace(GETREGS, self.pid, 0, ctypes.addressof(registers))
        place = registers[RSP] + 8  # past the count of arguments
        for _list in ("arguments", "environment"):
            while self.word_at(place):
                place += 8
            place += 8
        while kind := self.word_at(place):
            if kind == SYSINFO_EHDR:
                os.pwrite(self.memory, struct.pack("<Q", IGNORED), place)
            place += 16
        return super().enter()

    def word_at(self, place):
        return struct.unpack("<Q", os.pread(self.memory, 8, place))[0]
