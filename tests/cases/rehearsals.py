"""Runs of `rehearse --name a1`: events, and what is printed of them."""
from typing import NamedTuple

from kit.worked import EMPTY_FILE, SMALL_FILE, Case

OFFER_OPEN = "offer 0180bb0000010010000000\n"
OFFER_BLOCK = "offer 0201000200\n"
OFFER_CLOSE = "offer 050200000000000000\n"

NOTHING_DONE = "done 0 settled 0 stored 0"
ABSENT = [
    Case(
        "a block before OPEN and one after CLOSE, and places past the end",
        OFFER_BLOCK + "send 0\ndeliver 0\nbring 0\n" + OFFER_OPEN + OFFER_CLOSE + OFFER_BLOCK + "send 2\n",
        ["offered 2 sent 0 replies 0", NOTHING_DONE],
    ),
]

SEVENTEEN = OFFER_OPEN + 16 * OFFER_BLOCK
WINDOW = [
    Case("a seventeenth offer", SEVENTEEN, ["offered 16 sent 0 replies 0", NOTHING_DONE]),
    Case(
        "a seventeenth offer, and again once number 0 has its verdict",
        SEVENTEEN + "send 0\ndeliver 0\nbring 0\n" + OFFER_BLOCK,
        ["offered 17 sent 1 replies 1", "done 1 settled 1 stored 1"],
        [EMPTY_FILE],
    ),
]

GOES_ON = "stop\nstart\n"
OPENED = OFFER_OPEN + "send 0\ndeliver 0\n"
NONE_STORED = "stopped settled 0 stored 0"
ONE_STORED = "done 1 settled 1 stored 1"
STOPS = [
    Case(
        "between two turns, with a verdict that is lost",
        f"start\n{OPENED}bring 0\n{OFFER_BLOCK}send 0\ndeliver 1\n{GOES_ON}send 0\ndeliver 2\nbring 2\n"
        f"{OFFER_CLOSE}send 0\ndeliver 3\nbring 3\n",
        ["offered 3 sent 4 replies 4", "done 3 settled 3 stored 3"],
        [SMALL_FILE],
    ),
    Case("while no server runs all is lost", f"{OPENED}ask\nstop\n", ["offered 1 sent 1 replies 0", NONE_STORED]),
    Case(
        "a start while a server runs, and a stop while none does",
        f"stop\nstart\nstart\n{OPENED}bring 0\n",
        ["offered 1 sent 1 replies 1", ONE_STORED],
        [EMPTY_FILE],
    ),
    *(
        Case(f"in a call of the {disk}", f"start {disk} 0\n{OPENED}", ["offered 1 sent 1 replies 0", NONE_STORED])
        for disk in ("store", "journal")
    ),
    *(
        Case(
            f"in a call of the {disk}, and the message comes again",
            f"start {disk} 0\n{OPENED}start\ndeliver 0\nbring 0\n",
            ["offered 1 sent 1 replies 1", ONE_STORED],
            [EMPTY_FILE],
        )
        for disk in ("store", "journal")
    ),
]

DISKS = ("store", "journal")
SENT = OFFER_OPEN + OFFER_BLOCK + OFFER_CLOSE + "send 0\nsend 1\nsend 2\n"
HEARD = "".join(f"deliver {place}\nbring {place}\n" for place in range(3))


class Left(NamedTuple):
    """What a server leaves whose disk dies in a call of its turns: how many verdicts it wrote, the file that the next
    start makes of it, and how many calls of the takes' disk and of the journals' that start makes."""

    of: str
    death: str
    answered: int
    files: list
    calls: tuple

    def began(self):
        return f"start {self.death}\n{SENT}{HEARD}"

    def cases_of(self, of, starts, ran):
        """Whatever these starts do, the next server has each verdict that was written, and its file; and the take is
        finished once its messages come again. An ask before it is answered if one of these starts leaves a server."""
        given = f"{self.began()}{starts}ask\nstop\nstart\n"
        replies = self.answered + ran
        yield Case(
            f"{self.of}: {of}, and what was answered stands",
            given,
            [f"offered 3 sent 3 replies {replies}", "done {0} settled {0} stored {0}".format(self.answered)],
            self.files,
        )
        yield Case(
            f"{self.of}: {of}, and each message comes again",
            f"{given}deliver 0\ndeliver 1\ndeliver 2\n" + "".join(f"bring {it}\n" for it in range(replies + 3)),
            [f"offered 3 sent 3 replies {replies + 3}", "done 3 settled 3 stored 3"],
            [SMALL_FILE],
        )

    def cases(self):
        """Each call of the start is one in which a disk dies, of both disks, and a later one leaves a server. Then
        such starts come one after the other, but for those that die in the last three calls of the takes' disk: what
        those before them have mended takes no call again."""
        store, journal = ([f"start counting {disk} {it}" for it in range(n + 1)] for disk, n in zip(DISKS, self.calls))
        for failing, running in ((store[:-1], store[-1]), (journal[:-1], journal[-1])):
            for start in failing:
                yield from self.cases_of(start, f"{start}\n", 0)
            yield from self.cases_of(running, f"{running}\n", 1)
        in_a_row = [*store[:-4], *journal[:-1]]
        yield from self.cases_of(f"{len(in_a_row)} starts in a row", "".join(f"{it}\n" for it in in_a_row), 0)


LEFT = [
    Left("an empty journal", "journal 5", 0, [], (4, 10)),
    Left("a file whose OPEN isn't noted", "journal 7", 0, [], (8, 10)),
    Left("samples that the header doesn't count", "store 4", 1, [EMPTY_FILE], (13, 8)),
    Left("a file that is ahead of its journal", "journal 8", 1, [EMPTY_FILE], (14, 8)),
    Left("a file whose CLOSE isn't noted", "journal 9", 2, [SMALL_FILE], (12, 8)),
]
STARTS = [
    Case(
        "over nothing, where the journals' disk is only listed",
        f"start counting journal 0\n{OPENED}start\ndeliver 0\nbring 0\n",
        ["offered 1 sent 1 replies 1", ONE_STORED],
        [EMPTY_FILE],
    ),
    *(
        Case(f"the count goes on in a turn: {start}", f"{start}\n{OPENED}", ["offered 1 sent 1 replies 0", NONE_STORED])
        for start in ("start counting store 0", "start counting journal 1")
    ),
    Case(
        "the count goes on in a later turn",
        f"{LEFT[3].began()}start counting journal 8\ndeliver 0\ndeliver 1\ndeliver 2\n",
        ["offered 3 sent 3 replies 2", "stopped settled 1 stored 1"],
        [SMALL_FILE],
    ),
    Case(
        "while a server runs nothing is counted",
        f"start\nstart counting journal 0\n{OPENED}bring 0\n",
        ["offered 1 sent 1 replies 1", ONE_STORED],
        [EMPTY_FILE],
    ),
    *(case for left in LEFT for case in left.cases()),
]

CASES = {
    "what isn't there changes nothing": ABSENT,
    "servers stop": STOPS,
    "disks die in starts": STARTS,
    "sixteen numbers are offered from the first without a verdict": WINDOW,
}
