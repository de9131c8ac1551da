"""Runs of `replay` over takes: verdicts and files, fields, names, and what is at a limit or past it."""
from kit.worked import asked, BAD_EXCHANGE, BEXT, BLOCK, broken, CLOSE, EMPTY, EMPTY_FILE, EXCHANGE, EXCHANGE_1, FORM_682
from kit.worked import FORM_686, held, judged, JUNK, MARKED_FILE, MONO, NO_BEXT, NO_DATA, NO_FIELDS, OPEN, RAIN, RESERVED
from kit.worked import Case, SMALL, SMALL_FILE, stored, too_far, turned_away, VERSION

# What a take of another format has in place of MONO.
WIDE = "666d7420100000000100010080bb00008032020003001800"  # 24 bits
FASTEST = "666d7420100000000100010000b80b000070170002001000"  # 768,000 Hz
HISTORY = "626578745d020000" + NO_FIELDS + VERSION + RESERVED + "413d5000"  # three bytes, and a pad byte

FORMATS = [
    Case("an opened take", OPEN, [EXCHANGE, *stored(0)], [EMPTY_FILE]),
    Case(
        "a closed take without a frame",
        OPEN + "1000000005026131010000000000000000000000",
        [EXCHANGE, *stored(0, 1)],
        [EMPTY_FILE],
    ),
    Case(
        "three bytes of data and their pad byte",
        "12000000010261310000000080bb0000010018000000" + "0b0000000202613101000000010203",
        [EXCHANGE, *stored(0, 1)],
        ["file a1 694\n" + FORM_686 + JUNK + WIDE + NO_BEXT + "646174610300000001020300"],
    ),
    Case(
        "three bytes of history and their pad byte",
        "15000000010261310000000080bb0000010010000300413d50",
        [EXCHANGE, *stored(0)],
        ["file a1 694\n" + FORM_686 + JUNK + MONO + HISTORY + NO_DATA],
    ),
]

REFUSED = [
    Case(
        "a wrong total, the right one, and a block after it",
        OPEN
        + BLOCK
        + "1000000005026131020000000300000000000000"
        + "1000000005026131030000000200000000000000"
        + "0a00000002026131040000000100",
        [EXCHANGE, *stored(0, 1), judged(2, 11), *stored(3), judged(4, 4)],
        [SMALL_FILE],
    ),
    Case(
        "a marker, its identifier again, and one after the last frame",
        OPEN
        + BLOCK
        + "1000000003026131020000000700000002000000"
        + "1000000003026131030000000700000001000000"
        + "1000000003026131040000000800000003000000"
        + "1000000005026131050000000200000000000000",
        [EXCHANGE, *stored(0, 1, 2), judged(3, 8), judged(4, 7), *stored(5)],
        [MARKED_FILE],
    ),
    Case(
        "a block of one frame and a half, twice, and a whole one",
        OPEN + 2 * "0b0000000202613101000000010002" + "0c000000020261310200000001000200",
        [EXCHANGE, *stored(0), judged(1, 6), judged(1, 6), *stored(2)],
        [SMALL_FILE],
    ),
    Case(
        "a rate too great, the greatest, and OPEN after the end",
        "12000000010261310000000001b80b00010010000000"
        + "12000000010261310100000000b80b00010010000000"
        + "1000000005026131020000000000000000000000"
        + "12000000010261310300000000b80b00010010000000",
        [EXCHANGE, judged(0, 5), *stored(1, 2), judged(3, 4)],
        ["file a1 690\n" + FORM_682 + JUNK + FASTEST + NO_BEXT + NO_DATA],
    ),
    Case(
        "a rate of 0, the right one, and another OPEN",
        "12000000010261310000000000000000010010000000"
        + "12000000010261310100000080bb0000010010000000"
        + "12000000010261310200000080bb0000010010000000",
        [EXCHANGE, judged(0, 5), *stored(1), judged(2, 2)],
        [EMPTY_FILE],
    ),
    Case("a take that isn't opened", "0c000000020261310000000001000200", [EXCHANGE, judged(0, 3)]),
]

LOUDNESS = "0b00000004026131010000000804f7"  # -23.00, under number 1


def with_levels(levels):
    """The file of a take that is only opened, with these five loudness values, which make version 2."""
    content = NO_FIELDS + "0200" + "00" * 64 + levels + "00" * 180
    return "file a1 690\n" + FORM_682 + JUNK + MONO + BEXT + content + NO_DATA


FIELDS = [
    Case(
        "a description, and a date of another form",
        OPEN + "0d0000000402613101000000015261696e" + "11000000040261310200000004323032342d352d31",
        [EXCHANGE, *stored(0, 1), judged(2, 10)],
        ["file a1 690\n" + FORM_682 + JUNK + MONO + RAIN + NO_DATA],
    ),
    Case(
        "one loudness, which makes version 2",
        OPEN + LOUDNESS,
        [EXCHANGE, *stored(0, 1)],
        [with_levels("04f7ff7fff7fff7fff7f")],
    ),
    Case(
        "a loudness that is taken back, a tag of no field, and half a value",
        OPEN
        + LOUDNESS
        + "09000000040261310200000008"
        + "0b00000004026131030000000d04f7"
        + "0a00000004026131040000000c00",
        [EXCHANGE, *stored(0, 1, 2), judged(3, 10), judged(4, 10)],
        [EMPTY_FILE],
    ),
    Case(
        "the value that stands for none",
        OPEN + "0b000000040261310100000008ff7f",
        [EXCHANGE, *stored(0, 1)],
        [EMPTY_FILE],
    ),
    Case(
        "all five values",
        OPEN
        + LOUDNESS
        + "0b0000000402613102000000090a00"
        + "0b00000004026131030000000a9cff"
        + "0b00000004026131040000000b0080"
        + "0b00000004026131050000000cfe7f",
        [EXCHANGE, *stored(0, 1, 2, 3, 4, 5)],
        [with_levels("04f70a009cff0080fe7f")],
    ),
]

# The take `b2` is opened as `a1` is, and has two frames.
OPEN_B2 = "12000000010262320000000080bb0000010010000000"
BLOCK_B2 = "0c000000020262320100000001000300"
CLOSE_B2 = "1000000005026232020000000200000000000000"
FILE_B2 = "file b2 694\n" + FORM_686 + JUNK + MONO + NO_BEXT + "646174610400000001000300"

ORDERED_NAMES = [
    Case(
        "names of all kinds of bytes",
        "1200000001027a7a0000000080bb0000010010000000"
        + OPEN
        + "1100000001015f0000000080bb0000010010000000"
        + "110000000101390000000080bb0000010010000000"
        + "1100000001012d0000000080bb0000010010000000"
        + "110000000101610000000080bb0000010010000000",
        [EXCHANGE, *(stored(0, name=name)[0] for name in ("zz", "a1", "_", "9", "-", "a"))],
        [f"file {name} 690\n{EMPTY}" for name in ("-", "9", "_", "a", "a1", "zz")],
    ),
    Case(
        "a name of 32 bytes",
        "300000000120" + 32 * "7a" + "0000000080bb0000010010000000",
        [EXCHANGE, *stored(0, name=32 * "z")],
        [f"file {32 * 'z'} 690\n{EMPTY}"],
    ),
]

MIXED_TAKES = [
    Case(
        "two takes, message by message",
        CLOSE_B2 + OPEN + BLOCK + OPEN_B2 + CLOSE + BLOCK_B2,
        [EXCHANGE, held(2, 0, "b2"), *stored(0, 1), *stored(0, name="b2"), *stored(2), *stored(1, 2, name="b2")],
        [SMALL_FILE, FILE_B2],
    ),
    Case(
        "two takes in three exchanges, the later name first",
        OPEN_B2 + OPEN + "\n" + BLOCK + BLOCK_B2 + "\n" + CLOSE_B2 + CLOSE,
        [
            *(EXCHANGE, *stored(0, name="b2"), *stored(0)),
            *(EXCHANGE_1, *stored(1), *stored(1, name="b2")),
            *("exchange 2 EndOfInput", *stored(2, name="b2"), *stored(2)),
        ],
        [SMALL_FILE, FILE_B2],
    ),
    Case(
        "a take of which a block alone has come",
        OPEN + BLOCK_B2,
        [EXCHANGE, *stored(0), held(1, 0, "b2")],
        [EMPTY_FILE],
    ),
]

FAR_NUMBERS = [
    Case(
        "the last number of the window, and the one after it",
        "0c000000020262320f00000001000200" + "0c000000020262321000000001000200",
        [EXCHANGE, held(15, 0, "b2"), too_far(16, 0, "b2")],
    ),
    Case(
        "numbers far off",
        "0c000000020262320000100001000200" + "0c00000002026232ffffff0001000200",
        [EXCHANGE, too_far(0x10_00_00, 0, "b2"), too_far(0xFF_FF_FF, 0, "b2")],
    ),
    Case("a number that is none", "0c000000020262320000000101000200", [BAD_EXCHANGE, broken(4)]),
]


def block(number):
    return f"0c00000002026131{number:02x}00000001000200"


FULL_WINDOW = [
    Case(
        "16 first, then 15 to 1, OPEN, and 16 again",
        block(16) + "".join(block(number) for number in range(15, 0, -1)) + OPEN + block(16),
        [EXCHANGE, too_far(16, 0), *(held(number, 0) for number in range(15, 0, -1)), *stored(*range(17))],
        [
            "file a1 754\n52494646ea020000574156454a554e4b1c000000"
            + (JUNK + MONO + NO_BEXT + "6461746140000000" + 16 * "01000200")
        ],
    ),
    Case(
        "1 to 15 first, then 16, OPEN, 17, and 16 again",
        "".join(block(number) for number in range(1, 17)) + OPEN + block(17) + block(16),
        [
            *(EXCHANGE, *(held(number, 0) for number in range(1, 16)), too_far(16, 0)),
            *(*stored(*range(16)), held(17, 16), *stored(16, 17)),
        ],
        [
            "file a1 758\n52494646ee020000574156454a554e4b1c000000"
            + (JUNK + MONO + NO_BEXT + "6461746144000000" + 17 * "01000200")
        ],
    ),
]

LETTERS = "abcdefghijklmnop"
NAMES = [first + second for first in LETTERS for second in LETTERS]
WAITING = "".join(f"0c0000000202{name.encode().hex()}0100000001000200" for name in NAMES)
TURNED_AWAY = BLOCK_B2 + "0c000000020262321000000001000200" + "080000000602623200000000"
AWAY = [turned_away(1, "b2"), too_far(16, 0, "b2"), asked(0, name="b2")]
MANY_NAMES = [
    Case(
        "a waiting block under each of 256 names; then OPEN, two blocks and an ask of another, and OPEN of the first",
        WAITING
        + OPEN_B2
        + TURNED_AWAY
        + "12000000010261610000000080bb0000010010000000",
        [
            EXCHANGE,
            *(held(1, 0, name) for name in NAMES),
            *(turned_away(0, "b2"), *AWAY),
            *stored(0, 1, name="aa"),
        ],
        ["file aa 694\n" + SMALL],
    ),
    Case(
        "a waiting block under each of 256 names, OPEN of each, and another name before and after",
        WAITING
        + TURNED_AWAY
        + "".join(f"120000000102{name.encode().hex()}0000000080bb0000010010000000" for name in NAMES)
        + TURNED_AWAY,
        [
            *(EXCHANGE, *(held(1, 0, name) for name in NAMES), *AWAY),
            *(line for name in NAMES for line in stored(0, 1, name=name)),
            *AWAY,
        ],
        [f"file {name} 694\n{SMALL}" for name in NAMES],
    ),
    Case(
        "a number too far under each of 256 names, and a take of another",
        "".join(f"0c0000000202{name.encode().hex()}1000000001000200" for name in NAMES) + OPEN_B2 + BLOCK_B2 + CLOSE_B2,
        [EXCHANGE, *(too_far(16, 0, name) for name in NAMES), *stored(0, 1, 2, name="b2")],
        [FILE_B2],
    ),
]

# A block of 7,510 bytes, with which the form size is 8,192; a marker 7 before the first frame, and the end.
LONG_BLOCK = "5e1d00000202613101000000" + 7_510 * "11"
MARK_AND_CLOSE = "1000000003026131020000000700000000000000" + "100000000502613103000000ab0e000000000000"
LONG_DATA = "64617461561d0000" + 7_510 * "11"
FIRST_FRAME = "637565201c00000001000000070000000000000064617461000000000000000000000000"
LEAST_LIMIT = ("--limit", "8192")
LIMITS = [
    Case(
        "a limit that is reached",
        OPEN + LONG_BLOCK,
        [EXCHANGE, *stored(0, 1)],
        ["file a1 8200\n5249464600200000574156454a554e4b1c000000" + JUNK + MONO + NO_BEXT + LONG_DATA],
        LEAST_LIMIT,
    ),
    Case(
        "a limit that is passed",
        OPEN + LONG_BLOCK + MARK_AND_CLOSE,
        [EXCHANGE, *stored(0, 1, 2, 3)],
        [
            "file a1 8236\n42573634ffffffff57415645647336341c0000002420000000000000561d000000000000"
            + ("00" * 12 + MONO + NO_BEXT + "64617461ffffffff" + 7_510 * "11" + FIRST_FRAME)
        ],
        LEAST_LIMIT,
    ),
    Case(
        "the greatest limit",
        OPEN + LONG_BLOCK + MARK_AND_CLOSE,
        [EXCHANGE, *stored(0, 1, 2, 3)],
        [
            "file a1 8236\n5249464624200000574156454a554e4b1c000000"
            + (JUNK + MONO + NO_BEXT + LONG_DATA + FIRST_FRAME)
        ],
    ),
]

LONGEST_BLOCKS = [
    Case(
        "32,768 bytes",
        OPEN + "088000000202613101000000" + 32_768 * "11",
        [EXCHANGE, *stored(0, 1)],
        [
            "file a1 33458\n52494646aa820000574156454a554e4b1c000000"
            + (JUNK + MONO + NO_BEXT + "6461746100800000" + 32_768 * "11")
        ],
    ),
    Case(
        "a byte more",
        OPEN + "098000000202613101000000" + 32_769 * "11",
        [BAD_EXCHANGE, *stored(0), broken(5, 22)],
        [EMPTY_FILE],
    ),
]

CASES = {
    "a take leaves its file": FORMATS,
    "a request that isn't stored changes no file": REFUSED,
    "a field stands in its place": FIELDS,
    "files are printed in the order of their names": ORDERED_NAMES,
    "takes don't wait for each other": MIXED_TAKES,
    "sixteen numbers are waited for": FAR_NUMBERS,
    "a full window is stored at once": FULL_WINDOW,
    "a server of 256 names turns another away": MANY_NAMES,
    "a file past the limit is BW64": LIMITS,
    "a block has at most 32,768 bytes": LONGEST_BLOCKS,
}
