"""Reads vectors.txt, whose first lines say how it is written."""
import pathlib
import re
import struct
from dataclasses import dataclass, field

TOKEN = re.compile(r'(?:\d+\*)?(?:"[^"]*"|[^\s\[\]"]+)|[\[\]]')
OF_FILES = ("file", "no-file", "plant")


@dataclass
class Vector:
    """A case: its steps, each a word and its bytes, and what the server needs for it."""

    name: str
    rule: str = ""
    limit: int | None = None
    steps: list = field(default_factory=list)

    @property
    def needs_folder(self):
        return any(word in OF_FILES for word, _ in self.steps)


def spelled(token, words):
    """The bytes of a token; None stands for any byte."""
    count, star, rest = token.partition("*")
    if not star or not count.isdigit():
        count, rest = "1", token
    if rest.startswith('"'):
        part = [*rest.strip('"').encode()]
    elif rest == "?":
        part = [None]
    elif rest[0].isupper():
        name, *given = rest.split(":")
        text = words[name]
        for place, word in enumerate(given, 1):
            text = text.replace(f"${place}", word)
        part = bytes_of(text, words)
    else:
        part = [*bytes.fromhex(rest)]
    return int(count) * part


def bytes_of(text, words):
    """The bytes that a line spells."""
    open_parts = [[]]
    for token in TOKEN.findall(text):
        if token == "[":
            open_parts.append([])
        elif token == "]":
            body = open_parts.pop()
            open_parts[-1] += [*struct.pack("<I", len(body)), *body]
        else:
            open_parts[-1] += spelled(token, words)
    (whole,) = open_parts
    return whole


def vectors(path=pathlib.Path(__file__).with_name("vectors.txt")):
    """The cases of the file, in order."""
    words, found = {}, []
    for line in path.read_text().splitlines():
        word, _, rest = line.strip().partition(" ")
        if not word or word == "#":
            continue
        if rest.startswith("= "):
            words[word] = rest[2:]
        elif word == "case":
            found.append(Vector(rest))
        elif word == "rule":
            found[-1].rule = rest
        elif word == "limit":
            found[-1].limit = int(rest)
        elif word == "+":
            found[-1].steps[-1][1].extend(bytes_of(rest, words))
        else:
            found[-1].steps.append((word, bytes_of(rest, words)))
    return found
