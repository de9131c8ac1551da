"""Terminals for the scripts that look at what the program shows: a pseudoterminal, and what it would show."""
import contextlib
import fcntl
import os
import pty
import re
import select
import struct
import termios
import time

CONTROL = re.compile(r"\x1b\[([?\d]*)([A-Za-z])|([^\x1b])", re.DOTALL)
BEGUN = re.compile(r"(\x1b(\[[?\d]*)?)?\Z")


class Glass:
    """A terminal of so many rows and columns, as ECMA-48 says: what it shows, and how many lines it scrolled away."""

    def __init__(self, rows, columns):
        self.rows, self.columns = rows, columns
        self.lines = [" " * columns for _ in range(rows)]
        self.row = self.column = self.scrolled = self.screens = 0
        self.wraps = True
        self.rest = ""  # of a control sequence that isn't whole yet

    def feed(self, text):
        text = self.rest + text
        self.rest = BEGUN.search(text).group()
        text = text[: len(text) - len(self.rest)]
        if CONTROL.sub("", text):
            raise ValueError(f"bytes that no terminal knows: {text!r}")
        for match in CONTROL.finditer(text):
            number, letter, character = match.groups()
            if character:
                self.put(character)
            else:
                self.obey(number + letter)

    def obey(self, control):
        line = self.lines[self.row]
        if control == "H":
            self.row = self.column = 0
        elif control == "B":
            self.row = min(self.row + 1, self.rows - 1)
        elif control in ("K", "J"):
            self.lines[self.row] = line[: self.column] + " " * (self.columns - self.column)
            if control == "J":
                self.screens += 1  # each ends so
                self.lines[self.row + 1 :] = [" " * self.columns] * (self.rows - 1 - self.row)
        elif control in ("?7l", "?7h"):
            self.wraps = control == "?7h"
        else:
            raise ValueError(f"a control sequence that isn't expected: {control!r}")

    def put(self, character):
        if character == "\r":
            self.column = 0
        elif character == "\n":
            self.next_line()
        else:
            if self.column == self.columns:
                self.column = 0 if self.wraps else self.columns - 1
                if self.wraps:
                    self.next_line()
            line = self.lines[self.row]
            self.lines[self.row] = line[: self.column] + character + line[self.column + 1 :]
            self.column += 1

    def next_line(self):
        if self.row + 1 < self.rows:
            self.row += 1
        else:
            self.lines = self.lines[1:] + [" " * self.columns]
            self.scrolled += 1

    def shown(self):
        return [line.rstrip() for line in self.lines]


def open_terminal(rows, columns):
    """A pseudoterminal of this size: the end that is read, and the one for a program."""
    terminal, end = pty.openpty()
    fcntl.ioctl(end, termios.TIOCSWINSZ, struct.pack("4H", rows, columns, 0, 0))
    return terminal, end


def pieces_of(terminal, limit):
    """What comes of a terminal within so many seconds, piece by piece, until it is closed."""
    end = time.monotonic() + limit
    while (left := end - time.monotonic()) > 0:
        if select.select([terminal], [], [], left)[0]:
            with contextlib.suppress(OSError):
                if text := os.read(terminal, 65_536):
                    yield text.decode()
                    continue
            return
