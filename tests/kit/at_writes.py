"""An observer of tracer.py that kills a program, or refuses its call, at one of its writes into files."""
import os
import signal
import time

WRITE = 1  # the call's number on x86-64


class AtWrite:
    """At the given write into a file the program is killed, or the call is refused."""

    def __init__(self, number, does):
        self.left, self.does, self.process = number, does, None

    def before(self, call):
        if call.number == WRITE and call.words[0] > 2:
            self.left -= 1
            if self.left == 0:
                self.does(self, call)

    def after(self, call):
        pass

    def kill(self, _call):
        while self.process is None:
            time.sleep(0.001)
        os.kill(self.process, signal.SIGKILL)

    def refuse(self, call):
        call.refuse()
