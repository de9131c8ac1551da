"""The cases of try_malformed: each has its kind and its input from a seed and its number alone."""
import random

from kit.forms import form_of, put_together
from made_up.inputs import exchanges_of, interleaved, arrival, Message, Recording
from kit.takes import STORED

# How many of a thousand cases are of each kind; the docstring of try_malformed describes them.
KINDS = {"turns": 280, "cut": 200, "garbage": 200, "file": 200, "chunks": 70}
KINDS |= {"rehearsal": 20, "words": 18, "lines": 10, "names": 2}


class Case:
    """A case of a seed and a number; those that go through a replay have `exchanges` and a `book`."""

    def __init__(self, seed, number):
        self.number = number
        self.chance = random.Random(f"{seed} {number}")
        self.kind = self.chance.choices(list(KINDS), KINDS.values())[0]
        self.book = {}
        self.exchanges = []
        self.codes = {}
        if self.kind in ("turns", "cut", "garbage", "file"):
            self.fill()

    def fill(self):
        chance = self.chance
        count = 1 if self.kind == "file" else chance.choice((1, 1, 2, 3))
        takes = [(self.name(place), Recording(chance).requests()) for place in range(count)]
        if self.kind == "file":
            lists = [[Message(name, number, request) for number, request in enumerate(made)] for name, made in takes]
        else:
            lists = [arrival(chance, name, made) for name, made in takes]
        self.exchanges = exchanges_of(chance, self.kind, interleaved(chance, lists), self.book)

    def name(self, place):
        """A name that no other case has."""
        own = f"{self.number}-{place}"
        return own + self.chance.choice(("", "_", "z" * (32 - len(own))))

    def in_order(self):
        """What counts of its messages, in the order of names and numbers."""
        return [
            Message(name, number, request)
            for name, log in self.book.items()
            for number, request in enumerate(log.requests())
        ]

    def stored(self, name):
        return [request for request, code in zip(self.book[name].requests(), self.codes[name]) if code == STORED]

    def files(self, limit):
        """The files that its stored requests make, by name."""
        forms = {name: form_of(self.stored(name), limit) for name in self.book}
        return {name: put_together(*form) for name, form in forms.items() if form}
