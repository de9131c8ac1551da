"""Records a program's system calls, a line for each: an observer of tracer.py.

A line names the call, the file, socket or stream that it is for, and other arguments: bytes in hex, a place, a path, an
address, an option's value, a token. The line of a failed call ends with `fails` and the fault's number. Calls that
only concern memory and modes (LEFT_OUT) are left out, and so are closings, if it isn't a ClosingWatcher.
"""
import collections
import errno
import os
import struct
from dataclasses import dataclass, replace

EXIT, CLOSE, TRUNCATE = 231, 3, 77
LEFT_OUT = {
    **{9: "mmap", 11: "munmap", 12: "brk", 13: "rt_sigaction", 16: "ioctl", 25: "mremap"},
    **{28: "madvise", 228: "clock_gettime", 318: "getrandom"},
}
OPTIONS = {(6, 1): "nodelay", (1, 20): "receive-timeout", (1, 21): "send-timeout"}  # by level and number
REUSE = (1, 2)  # std sets it on each listener
FLAGS = {os.O_CREAT: "create", os.O_EXCL: "new", os.O_TRUNC: "cut", os.O_APPEND: "append"}
ACCESS = ("to-read", "to-write", "to-read-and-write")
READING, WRITING, ADD = 1, 4, 1  # of epoll
COPY = 1030  # of fcntl


@dataclass
class Fault:
    """The first `left` calls whose lines begin like this aren't made, and fail with this number."""

    line: str
    number: int = errno.EIO
    left: int = 1


def signed_32(word):
    return struct.unpack("<i", struct.pack("<I", word & 0xFFFF_FFFF))[0]


class Watcher:
    """The lines of a program's calls, of which some may be refused. `wrong` changes calls as a wrong body would."""

    wrong = None

    def __init__(self, *faults):
        self.faults = [replace(fault) for fault in faults]
        self.lines = []
        self.names = {0: "in", 1: "out", 2: "faults"}  # by descriptor
        self.counts = collections.Counter()

    def before(self, call):
        if self.wrong:
            self.wrong.before(call)
        is_hidden = call.answered is not None or call.number in LEFT_OUT
        call.line = None if is_hidden else self.line_of(call)
        fault = next((it for it in self.faults if it.left and (call.line or "").startswith(it.line)), None)
        if fault:
            fault.left -= 1
            call.refuse(fault.number)
        if call.number == EXIT:
            self.lines.append(call.line)

    def after(self, call):
        if self.wrong:
            self.wrong.after(call)
        if call.line is None:
            return
        if call.result < 0:
            self.lines.append(f"{call.line} fails {-call.result}")
            return
        kind, _, name = call.line.partition(" ")
        if kind in ("read", "receive"):
            call.line += f" {call.bytes_at(call.words[1], call.result).hex()}"
        elif kind in ("write", "send") and call.result != call.words[2]:
            call.line += f" takes {call.result}"
        self.know(call, kind, name)
        if kind not in ("close", "socket"):
            self.lines.append(call.line)

    def know(self, call, kind, name):
        """Keeps what each descriptor is for."""
        if kind == "open":
            self.names[call.result] = name.split()[0].rstrip("/").rpartition("/")[2]
        elif kind in ("socket", "accept", "copy", "poll"):
            self.names[call.result] = name
        elif kind == "close":
            self.names.pop(call.words[0], None)
        if kind in ("socket", "accept"):
            self.counts[kind] += 1

    def name(self, call):
        return self.names.get(call.words[0], f"descriptor {call.words[0]}")

    def line_of(self, call):
        form = FORMS.get(call.number)
        return form(self, call) if form else f"call {call.number} {self.name(call)}"


class ClosingWatcher(Watcher):
    """Closings have lines too."""

    def know(self, call, kind, name):
        if kind == "close":
            self.lines.append(call.line)
        super().know(call, kind, name)


# The line of each kind of call, before it is made


def of_stream(kind):
    return lambda watcher, call: f"{kind} {watcher.name(call)}"


def of_bytes(kind):
    return lambda watcher, call: f"{kind} {watcher.name(call)} {call.bytes_at(call.words[1], call.words[2]).hex()}"


def of_opening(place):
    def line(watcher, call):
        flags = call.words[place + 1]
        words = [word for flag, word in FLAGS.items() if flags & flag]
        return " ".join(["open", call.text_at(call.words[place]), ACCESS[flags & os.O_ACCMODE], *words])

    return line


def of_path(kind, place):
    """The line of a call that is for a descriptor where its path is empty."""

    def line(watcher, call):
        return f"{kind} {call.text_at(call.words[place]) or watcher.name(call)}"

    return line


def of_two_paths(kind, first, second):
    return lambda _, call: " ".join([kind, call.text_at(call.words[first]), call.text_at(call.words[second])])


def of_address(kind):
    def line(watcher, call):
        content = call.bytes_at(call.words[1], 8)
        port, address = int.from_bytes(content[2:4], "big"), ".".join(map(str, content[4:]))
        return f"{kind} {watcher.name(call)} {address}:{port}"

    return line


def of_seek(watcher, call):
    return f"seek {watcher.name(call)} {call.words[1]}" + (f" from {call.words[2]}" if call.words[2] else "")


def of_socket(watcher, call):
    return f"socket socket-{watcher.counts['socket']}"


def of_acceptance(watcher, call):
    return f"accept peer-{watcher.counts['accept']}"


def of_option(watcher, call):
    if tuple(call.words[1:3]) == REUSE:
        return None
    content = call.bytes_at(call.words[3], call.words[4])
    value = "%d.%06d" % struct.unpack("<qq", content) if len(content) == 16 else int.from_bytes(content, "little")
    return f"set {watcher.name(call)} {OPTIONS.get(tuple(call.words[1:3]), call.words[1:3])} {value}"


def of_registration(watcher, call):
    name = watcher.names.get(call.words[2], f"descriptor {call.words[2]}")
    if call.words[1] != ADD:
        return f"register again {name}"
    events, token = struct.unpack("<IQ", call.bytes_at(call.words[3], 12))
    words = [word for flag, word in ((READING, "reading"), (WRITING, "writing")) if events & flag]
    return " ".join(["register", name, str(token), *words])


def of_poll(watcher, call):
    return f"wait {call.words[1]} {signed_32(call.words[2])}"


def of_wait(watcher, call):
    return f"wait {call.words[2]} {signed_32(call.words[3])}"


def of_shutdown(watcher, call):
    return f"shut {watcher.name(call)} {call.words[1]}"


def of_copy(watcher, call):
    return f"{'copy' if call.words[1] == COPY else 'control'} {watcher.name(call)}"


def of_poll_set(watcher, call):
    return "poll poll"


def of_advice(watcher, call):
    return "advise {} {} {} {}".format(watcher.name(call), *call.words[1:4])


def of_exit(watcher, call):
    return f"exit {call.words[0]}"


# By their numbers on x86-64.
FORMS = {
    0: of_stream("read"),
    1: of_bytes("write"),
    2: of_opening(0),
    CLOSE: of_stream("close"),
    4: of_path("stat", 0),
    7: of_poll,
    8: of_seek,
    41: of_socket,
    42: of_address("connect"),
    44: of_bytes("send"),
    45: of_stream("receive"),
    48: of_shutdown,
    49: of_address("bind"),
    50: of_stream("listen"),
    54: of_option,
    72: of_copy,
    73: of_stream("lock"),
    74: of_stream("sync"),
    75: of_stream("sync-data"),
    TRUNCATE: of_stream("truncate"),
    82: of_two_paths("rename", 0, 1),
    87: of_path("remove", 0),
    217: of_stream("list"),
    221: of_advice,
    EXIT: of_exit,
    232: of_wait,
    233: of_registration,
    257: of_opening(1),
    262: of_path("stat", 1),
    264: of_two_paths("rename", 1, 3),
    288: of_acceptance,
    291: of_poll_set,
    316: of_two_paths("rename", 1, 3),
    332: of_path("stat", 1),
}
