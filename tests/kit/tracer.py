"""Follows the system calls of a running program by ptrace: nothing is built, and nothing is loaded into the program.

Only the calls that the program makes itself are followed, from its first instruction on, and not those of its loader.
An observer is given each call before it is made, when it may change it or answer in its place, and again with its
result. Several programs may be followed at once, each by a thread of its own.

Needs x86-64 Linux, permission to trace a child, and a program of one thread.
"""
import concurrent.futures
import ctypes
import errno
import os
import pathlib
import signal
import struct
import subprocess

SYSTEM = ctypes.CDLL(None, use_errno=True)
SYSTEM.ptrace.argtypes = [ctypes.c_long, ctypes.c_long, ctypes.c_ulong, ctypes.c_ulong]
SYSTEM.ptrace.restype = ctypes.c_long

# ptrace(2): its requests, and what it stops at.
TRACEME, PEEKDATA, PEEKUSER, POKEDATA, POKEUSER, CONT, GETREGS, SYSCALL, SETOPTIONS = 0, 2, 3, 5, 6, 7, 12, 24, 0x4200
O_TRACESYSGOOD, O_EXITKILL = 0x1, 0x100000
AT_SYSCALL = signal.SIGTRAP | 0x80
AT_ENTRY = 9  # in the vector of getauxval(3)
BREAKPOINT = 0xCC  # int3

# The places of registers in `struct user`, in words of eight bytes.
REGISTERS = 27
R10, R9, R8, RAX, RDX, RSI, RDI, ORIG_RAX, RIP = 7, 8, 9, 10, 12, 13, 14, 15, 16
WORDS = (RDI, RSI, RDX, R10, R8, R9)  # the arguments of a call

LONGEST_PATH = 4_096
NO_CALL = -1  # a number of which Linux makes no call


def ptrace(request, process=0, place=0, word=0):
    given = SYSTEM.ptrace(request, process, place, word)
    fault = ctypes.get_errno()
    if given == -1 and fault:
        raise OSError(fault, f"ptrace: {os.strerror(fault)}")
    return given


class Call:
    """A system call: its number on x86-64, its six arguments, and once it was made its result, which an observer may
    change. The result of a failed call is the negative number of the fault.
    """

    def __init__(self, memory, registers):
        self.memory = memory
        self.number = registers[ORIG_RAX]
        self.words = [registers[place] for place in WORDS]
        self.changed = {}  # registers, by their places
        self.answered = None
        self.result = None

    def bytes_at(self, address, length):
        return os.pread(self.memory, length, address)

    def write_at(self, address, content):
        """Changes the program's memory, for good."""
        os.pwrite(self.memory, content, address)

    def text_at(self, address):
        return self.bytes_at(address, LONGEST_PATH).split(b"\0")[0].decode(errors="replace")

    def change(self, place, word):
        """It is made with this argument at a place, counted from 0."""
        self.words[place] = word
        self.changed[WORDS[place]] = word

    def become(self, number):
        """Another call is made instead, with the same arguments."""
        self.number = number
        self.changed[ORIG_RAX] = number

    def answer(self, result):
        """It isn't made, and has this result."""
        self.changed[ORIG_RAX] = NO_CALL
        self.answered = result

    def refuse(self, fault=errno.EIO):
        """It isn't made, and fails with this number."""
        self.answer(-fault)


class Traced(subprocess.Popen):
    """A running program of which an observer is given each call: `before` it is made, and `after`."""

    def __init__(self, words, observer, **pipes):
        self.observer, self.status, self.memory = observer, None, None
        tracer = concurrent.futures.ThreadPoolExecutor(1)  # ptrace serves only the thread that began the tracing
        options = {"preexec_fn": lambda: ptrace(TRACEME), **pipes}
        try:
            tracer.submit(super().__init__, words, **options).result()
        except subprocess.SubprocessError:
            raise SystemExit("no program may be traced here (ptrace)") from None
        self.followed = tracer.submit(self.follow)
        tracer.shutdown(wait=False)

    def wait(self, timeout=None):
        """The status. Only the tracer may call waitpid(2), which may report a stop instead."""
        try:
            self.returncode = self.followed.result(timeout)
        except concurrent.futures.TimeoutError:
            raise subprocess.TimeoutExpired(self.args, timeout) from None
        return self.returncode

    def poll(self):
        return self.wait() if self.followed.done() else None

    def __exit__(self, fault, *more):
        if fault and not self.followed.done():
            os.kill(self.pid, signal.SIGKILL)  # it may wait for something that no longer happens
        super().__exit__(fault, *more)

    # The methods below run in the tracer's thread.

    def follow(self):
        """Follows it until it ends; its status."""
        try:
            self.stop()
            ptrace(SETOPTIONS, self.pid, 0, O_TRACESYSGOOD | O_EXITKILL)
            self.memory = os.open(f"/proc/{self.pid}/mem", os.O_RDWR | os.O_CLOEXEC)
            self.follow_from(self.enter())
        except ProcessLookupError:
            pass  # it has ended, or was killed at a stop
        finally:
            self.end()
        return os.waitstatus_to_exitcode(self.status)

    def end(self):
        if self.memory is not None:
            os.close(self.memory)
        if self.status is None:
            os.kill(self.pid, signal.SIGKILL)
            _, self.status = os.waitpid(self.pid, 0)

    def stop(self):
        """The signal of its next stop."""
        _, status = os.waitpid(self.pid, 0)
        if not os.WIFSTOPPED(status):
            self.status = status
            raise ProcessLookupError
        return os.WSTOPSIG(status)

    def resume(self, request, number=0):
        """Continues it, with the signal of this number; the signal of its next stop."""
        ptrace(request, self.pid, 0, number)
        return self.stop()

    def enter(self):
        """Runs its loader, up to its own first instruction; the address of that."""
        words = pathlib.Path(f"/proc/{self.pid}/auxv").read_bytes()
        place = dict(struct.iter_unpack("<QQ", words))[AT_ENTRY]
        word = ptrace(PEEKDATA, self.pid, place)
        ptrace(POKEDATA, self.pid, place, word & ~0xFF | BREAKPOINT)
        if self.resume(CONT) != signal.SIGTRAP:
            raise SystemExit(f"{self.args[0]} isn't entered")
        ptrace(POKEDATA, self.pid, place, word)
        self.put(RIP, place)
        return place

    def put(self, register, word):
        ptrace(POKEUSER, self.pid, 8 * register, word)

    def follow_from(self, _entry):
        """Stops it at each call."""
        stop = self.resume(SYSCALL)
        while True:
            if stop == AT_SYSCALL:
                self.make_call()
                stop = 0
            stop = self.resume(SYSCALL, stop)

    def make_call(self):
        """From the stop before a call to the one after it. A register that was changed for it gets its word back."""
        registers = (ctypes.c_uint64 * REGISTERS)()
        ptrace(GETREGS, self.pid, 0, ctypes.addressof(registers))
        call = Call(self.memory, registers)
        self.observer.before(call)
        for register, word in call.changed.items():
            self.put(register, word)
        self.resume(SYSCALL)
        result = ptrace(PEEKUSER, self.pid, 8 * RAX) if call.answered is None else None
        call.result = result if call.answered is None else call.answered
        self.observer.after(call)
        for register in call.changed:
            self.put(register, registers[register])
        if call.result != result:
            self.put(RAX, call.result)
