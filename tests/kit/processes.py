"""What scripts that start processes share: when the script itself ends, and what its children cost."""
import ctypes
import os
import pathlib
import resource
import signal
import sys

SYSTEM = ctypes.CDLL(None)


def end_after(seconds):
    """Ends this script after so many seconds, or by a signal, so that what it holds is cleaned up."""

    def give_up(number, _frame):
        sys.exit(f"stopped by signal {number}")

    for number in (signal.SIGALRM, signal.SIGTERM, signal.SIGINT, signal.SIGHUP):
        signal.signal(number, give_up)
    signal.alarm(seconds)


def prepare_child():
    """A child is killed when this script ends, however it ends; SIGINT ends it even if the script ignores SIGINT."""
    SYSTEM.prctl(1, signal.SIGKILL)
    signal.signal(signal.SIGINT, signal.SIG_DFL)


def seconds_of_children():
    """The processor seconds of the children that have ended, with those of theirs."""
    used = resource.getrusage(resource.RUSAGE_CHILDREN)
    return used.ru_utime + used.ru_stime


def seconds_of(process):
    """The processor seconds of a process that runs, by its number, with those of its children that have ended."""
    fields = pathlib.Path(f"/proc/{process}/stat").read_text().rpartition(")")[2].split()
    return sum(map(int, fields[11:15])) / os.sysconf("SC_CLK_TCK")
