"""Takes with the calls on the store that each request makes, and the files that they leave.

Bytes are worked out by hand from docs/FORMATS.md. A call is `create`, `write PLACE LENGTH` or `sync`.
"""
from typing import NamedTuple

from cases.takes import FIRST_FRAME, HISTORY, WIDE
from kit.worked import BEXT, EMPTY, FORM_682, FORM_686, FORM_722, JUNK, MARKER, MONO, NO_BEXT, NO_DATA, NO_FIELDS, RAIN
from kit.worked import SMALL, TWO_FRAMES

BAD_MARKER, DUPLICATE_MARKER, BAD_FIELD = 7, 8, 10
HEADER = "write 0 690"


class Step(NamedTuple):
    """A request in hex, its calls at the first try and at a try after a fault, and its verdict."""

    request: str
    first: list = []
    again: list = []
    code: int = 0


class Case(NamedTuple):
    """A take, the number of its calls and of the bytes that they write where nothing fails, and its file in hex."""

    of: str
    steps: list
    calls: int
    written: int
    file: str


def refused(request, code):
    """A request that isn't stored: no call is made."""
    return Step(request, code=code)


# The requests of takes: 48,000 Hz, one channel, 16 bits, no history; two frames; a marker 7 after the second one.
OPEN = Step("0180bb0000010010000000", ["create", HEADER], [HEADER])
BLOCK = Step("0201000200", ["write 690 4", "write 4 4", "write 686 4"], ["write 690 4", HEADER])
DESCRIBE = Step("04015261696e", ["write 80 256"], [HEADER])
MARK = Step("030700000002000000")
CLOSE = Step("050200000000000000", ["sync"], [HEADER, "sync"])
CLOSE_EMPTY = CLOSE._replace(request="050000000000000000")
CLOSE_MARKED = CLOSE._replace(first=["write 694 36", "write 4 4", "sync"], again=["write 694 36", HEADER, "sync"])

# A loudness of -23.00 that is given, one that is taken back, and the value for none where none was given.
LOUD = Step("040804f7", ["write 426 76"], [HEADER])
NOT_LOUD = LOUD._replace(request="0408")
STILL_NOT_LOUD = Step("0408ff7f", [], [HEADER])

# Three bytes of one channel of 24 bits, which need a pad byte; and OPEN with a history of three bytes.
OPEN_WIDE = OPEN._replace(request="0180bb0000010018000000")
ODD_BLOCK = Step(
    "02070809", ["write 690 3", "write 693 1", "write 4 4", "write 686 4"], ["write 690 3", "write 693 1", HEADER]
)
OPEN_WITH_HISTORY = Step("0180bb0000010010000300413d50", ["create", "write 0 694"], ["write 0 694"])

# Of one loudness the file has version 2, and the value for none in place of the others.
LOUD_BEXT = BEXT + NO_FIELDS + "0200" + 64 * "00" + "04f7" + 4 * "ff7f" + 180 * "00"

CLOSED = Case("two frames", [OPEN, BLOCK, CLOSE], 6, 702, SMALL)

SHORT = [
    Case("an opened take", [OPEN], 2, 690, EMPTY),
    CLOSED,
    Case("a closed take without data", [OPEN, CLOSE_EMPTY], 3, 690, EMPTY),
    Case(
        "a frame of three bytes",
        [OPEN_WIDE, ODD_BLOCK],
        6,
        702,
        FORM_686 + JUNK + WIDE + NO_BEXT + "646174610300000007080900",
    ),
    Case("a history of three bytes", [OPEN_WITH_HISTORY], 2, 694, FORM_686 + JUNK + MONO + HISTORY + NO_DATA),
    Case(
        "one marker stored and two refused",
        [
            *(OPEN, BLOCK, MARK),
            refused("030700000001000000", DUPLICATE_MARKER),
            refused("030800000003000000", BAD_MARKER),
            CLOSE_MARKED,
        ],
        8,
        742,
        FORM_722 + JUNK + MONO + NO_BEXT + TWO_FRAMES + MARKER,
    ),
    Case(
        "a description, and a date of another form",
        [OPEN, DESCRIBE, refused("0404323032342d352d31", BAD_FIELD)],
        3,
        946,
        FORM_682 + JUNK + MONO + RAIN + NO_DATA,
    ),
    Case("a loudness", [OPEN, LOUD], 3, 766, FORM_682 + JUNK + MONO + LOUD_BEXT + NO_DATA),
    Case(
        "a loudness that is taken back, a tag of no field, half a value, and the value for none",
        [OPEN, LOUD, NOT_LOUD, refused("040d", BAD_FIELD), refused("040c00", BAD_FIELD), STILL_NOT_LOUD],
        4,
        842,
        EMPTY,
    ),
]

# With 7,510 bytes of data the form size is 8,192. A marker 7 is before the first frame.
LONG_BLOCK = Step("02" + 7_510 * "11", ["write 690 7510", "write 4 4", "write 686 4"], ["write 690 7510", HEADER])
EARLY_MARK = Step("030700000000000000")
DS64 = "42573634ffffffff57415645647336341c000000"
UNSIZED = "64617461ffffffff"

# Takes for faults. The last two are RIFF first, and then BW64.
FIVE = Case(
    "two frames, a description and a marker",
    [OPEN, BLOCK, DESCRIBE, MARK, CLOSE_MARKED],
    9,
    998,
    FORM_722 + JUNK + MONO + RAIN + TWO_FRAMES + MARKER,
)
BW64_AT_CLOSE = Case(
    "BW64 from the close on",
    [
        *(OPEN, LONG_BLOCK, EARLY_MARK),
        Step("05ab0e000000000000", ["write 8200 36", HEADER, "sync"], ["write 8200 36", HEADER, "sync"]),
    ],
    8,
    8_934,
    DS64 + "2420000000000000" + "561d000000000000" + 12 * "00" + MONO + NO_BEXT + UNSIZED + 7_510 * "11" + FIRST_FRAME,
)
BW64_AT_BLOCK = Case(
    "BW64 from a block on",
    [
        *(OPEN, LONG_BLOCK),
        Step("022222", ["write 8200 2", HEADER], ["write 8200 2", HEADER]),
        Step("0233333333", ["write 8202 4", "write 20 16"], ["write 8202 4", HEADER]),
        *(DESCRIBE, EARLY_MARK),
        Step("05ae0e000000000000", ["write 8206 36", "write 20 8", "sync"], ["write 8206 36", HEADER, "sync"]),
    ],
    13,
    9_220,
    DS64
    + ("2a20000000000000" + "5c1d000000000000" + 12 * "00" + MONO + RAIN + UNSIZED)
    + (7_510 * "11" + "222233333333" + FIRST_FRAME),
)

# One byte less than 7,510, and its pad byte: the form size is 8,192 too. A frame of three bytes more makes BW64.
LONG_ODD_BLOCK = Step(
    "02" + 7_509 * "11",
    ["write 690 7509", "write 8199 1", "write 4 4", "write 686 4"],
    ["write 690 7509", "write 8199 1", HEADER],
)
EDGES = [
    Case(
        "odd data and a pad byte up to the limit",
        [OPEN_WIDE, LONG_ODD_BLOCK],
        6,
        8_208,
        "5249464600200000574156454a554e4b1c000000" + JUNK + WIDE + NO_BEXT + "64617461551d0000" + 7_509 * "11" + "00",
    ),
    Case(
        "a frame past the limit",
        [OPEN_WIDE, LONG_ODD_BLOCK, Step("02222222", ["write 8199 3", HEADER], ["write 8199 3", HEADER])],
        8,
        8_901,
        DS64
        + ("0220000000000000" + "581d000000000000" + 12 * "00" + WIDE + NO_BEXT + UNSIZED)
        + (7_509 * "11" + "222222"),
    ),
]

# A tag and its value, and where the field is in the file: EBU Tech 3285. A loudness is written from the version on,
# which says whether one is given.
PLACES = [
    ("01" + "5261696e", "80 256"),
    ("02" + "7265636f72646572", "336 32"),
    ("03" + "7265666572656e6365", "368 32"),
    ("04" + "323032342d30352d3031", "400 10"),
    ("05" + "30393a33303a3030", "410 8"),
    ("06" + 8 * "01", "418 8"),
    ("07" + 64 * "02", "428 64"),
    ("0804f7", "426 76"),
    ("090100", "426 76"),
    ("0a0200", "426 76"),
    ("0b0300", "426 76"),
    ("0c0400", "426 76"),
]

# Each field is set twice: the second time nothing changes.
SET_TWICE = [step for field, place in PLACES for step in (Step(f"04{field}", [f"write {place}"]), Step(f"04{field}"))]
ALL_FIELDS = "".join(
    (
        "5261696e" + 252 * "00",
        "7265636f72646572" + 24 * "00",
        "7265666572656e6365" + 23 * "00",
        "323032342d30352d3031" + "30393a33303a3030" + 8 * "01",
        "0200" + 64 * "02" + "04f70100020003000400" + 180 * "00",
    )
)
FIELDS = Case(
    "each field, twice",
    [OPEN, *SET_TWICE],
    14,
    1_480,
    FORM_682 + JUNK + MONO + BEXT + ALL_FIELDS + NO_DATA,
)

# What fails, as run_files names it, and the file that there is then.
FAULTS = [
    ("the opening", "0", None),
    ("a seek", "1s", ""),
    ("a write, after half of a header", "1", EMPTY[: 2 * 345]),
    ("a write of a header, at its start", "1n", ""),
    ("a write, after half of the samples", "2", EMPTY + "0100"),
    ("a write of samples, at its start", "2n", EMPTY),
    ("a sync", "5", SMALL),
]
