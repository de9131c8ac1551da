"""Runs of `replay --fuse K`: call K of the store fails, and its request is tried again."""
from cases.takes import block, OPEN_B2
from kit.worked import asked, BLOCK, CLOSE, conflict, delayed, EMPTY, EMPTY_FILE, EXCHANGE, EXCHANGE_1, FORM_682, FORM_686
from kit.worked import FORM_722, held, JUNK, MARKER, MONO, NO_BEXT, NO_DATA, OPEN, OTHER_BLOCK, RAIN, Case, SMALL_FILE
from kit.worked import stored, too_far, TWO_FRAMES

# Numbers 2 to 4: the description `Rain`, a marker 7 after the second frame, and two frames in all.
DESCRIPTION = "0d0000000402613102000000015261696e"
MARK = "1000000003026131030000000700000002000000"
CLOSE_4 = "1000000005026131040000000200000000000000"
FIVE = OPEN + BLOCK + DESCRIPTION + MARK + CLOSE_4

FILE_OF_FIVE = "file a1 730\n" + FORM_722 + JUNK + MONO + RAIN + TWO_FRAMES + MARKER

# What five messages in each of two exchanges print, without a fault and with one at OPEN, BLOCK, BEXT and CLOSE.
# The number that is delayed has its verdict in the next turn.
AGAIN = [EXCHANGE_1, *stored(0, 1, 2, 3, 4)]
NO_DELAY = [EXCHANGE, *stored(0, 1, 2, 3, 4), *AGAIN]
AT_OPEN = [EXCHANGE, delayed(0), *stored(0, 1, 2, 3, 4), *AGAIN]
AT_BLOCK = [EXCHANGE, *stored(0), delayed(1), *stored(1, 2, 3, 4), *AGAIN]
AT_FIELD = [EXCHANGE, *stored(0, 1), delayed(2), *stored(2, 3, 4), *AGAIN]
AT_CLOSE = [EXCHANGE, *stored(0, 1, 2, 3), delayed(4), EXCHANGE_1, *stored(4, 0, 1, 2, 3, 4)]
LINES_AT = [AT_OPEN, AT_OPEN, AT_BLOCK, AT_BLOCK, AT_BLOCK, AT_FIELD, AT_CLOSE, AT_CLOSE, AT_CLOSE, NO_DELAY]


def fused(fuse, of, given, lines, files):
    return Case(of, given, lines, files, ("--fuse", str(fuse)))


EACH_CALL = [
    Case("no call", FIVE + "\n" + FIVE, NO_DELAY, [FILE_OF_FIVE]),
    *(fused(at, f"call {at}", FIVE + "\n" + FIVE, lines, [FILE_OF_FIVE]) for at, lines in enumerate(LINES_AT)),
    fused(4_294_967_295, "the greatest call", FIVE + "\n" + FIVE, NO_DELAY, [FILE_OF_FIVE]),
]

RETRIES = [
    fused(
        3,
        "a block that waited",
        CLOSE + BLOCK + OPEN + BLOCK,
        [EXCHANGE, held(2, 0), held(1, 0), *stored(0, 1, 2)],
        [SMALL_FILE],
    ),
    fused(
        3,
        "a block, the same and another",
        OPEN + BLOCK + BLOCK + OTHER_BLOCK,
        [EXCHANGE, *stored(0), delayed(1), *stored(1), conflict(1, 2)],
        [SMALL_FILE],
    ),
    fused(
        3,
        "a block and another",
        OPEN + BLOCK + OTHER_BLOCK,
        [EXCHANGE, *stored(0), delayed(1), *stored(1), conflict(1, 2)],
        [SMALL_FILE],
    ),
    fused(
        3,
        "a block and a number that waits",
        OPEN + BLOCK + MARK,
        [EXCHANGE, *stored(0), delayed(1), *stored(1), held(3, 2)],
        [SMALL_FILE],
    ),
    # number 17 is too far for the window at the turn's start, whatever the turn stores
    fused(
        3,
        "a block and a number too far",
        OPEN + BLOCK + "0c000000020261311100000001000200",
        [EXCHANGE, *stored(0), delayed(1), *stored(1), too_far(17, 2)],
        [SMALL_FILE],
    ),
    fused(
        1,
        "OPEN twice, the name made the first time",
        OPEN + OPEN,
        [EXCHANGE, delayed(0), *stored(0)],
        [EMPTY_FILE],
    ),
    fused(
        0,
        "OPEN alone, and the take in the next exchange",
        OPEN + "\n" + OPEN + BLOCK + CLOSE,
        [EXCHANGE, delayed(0), EXCHANGE_1, *stored(0, 1, 2)],
        [SMALL_FILE],
    ),
    # the call 2 makes the name b2
    fused(
        2,
        "OPEN of another take, and a block of the first meanwhile",
        OPEN + OPEN_B2 + BLOCK + "080000000602623200000000" + OPEN_B2,
        [
            *(EXCHANGE, *stored(0), delayed(0, "b2"), *stored(1)),
            *(asked(0, name="b2"), *stored(0, name="b2")),
        ],
        [SMALL_FILE, "file b2 690\n" + EMPTY],
    ),
    # number 16 is too far while 0 is to come, whatever its turn stores: sixteen verdicts and a notice
    fused(
        0,
        "a full window, and a number too far, twice",
        "".join(block(number) for number in range(1, 16)) + OPEN + 2 * block(16),
        [
            *(EXCHANGE, *(held(number, 0) for number in range(1, 16)), delayed(0)),
            *(*stored(*range(16)), too_far(16, 16), *stored(16)),
        ],
        [
            "file a1 754\n52494646ea020000574156454a554e4b1c000000"
            + (JUNK + MONO + NO_BEXT + "6461746140000000" + 16 * "01000200")
        ],
    ),
]

# Two frames: the form's size counts them, that of the data doesn't.
TORN_FILE = "file a1 694\n" + FORM_686 + JUNK + MONO + NO_BEXT + NO_DATA + "01000200"
HALF_A_MARKER = "637565201c00000001000000070000000200"
BEFORE_CLOSE = [EXCHANGE, *stored(0, 1, 2, 3), delayed(4)]
TORN = [
    fused(
        2,
        "half of the data",
        OPEN + BLOCK,
        [EXCHANGE, *stored(0), delayed(1)],
        ["file a1 692\n" + FORM_682 + JUNK + MONO + NO_BEXT + NO_DATA + "0100"],
    ),
    fused(
        3,
        "half of the form size, and an ask, which tries nothing again",
        OPEN + BLOCK + "080000000602613100000000",
        [EXCHANGE, *stored(0), delayed(1), asked(1)],
        [TORN_FILE],
    ),
    fused(
        3,
        "half of the form size, and another take",
        OPEN + BLOCK + OPEN_B2,
        [EXCHANGE, *stored(0), delayed(1), *stored(0, name="b2")],
        [TORN_FILE, "file b2 690\n" + EMPTY],
    ),
    fused(
        6,
        "half of the marker",
        FIVE,
        BEFORE_CLOSE,
        ["file a1 712\n" + FORM_686 + JUNK + MONO + RAIN + TWO_FRAMES + HALF_A_MARKER],
    ),
    fused(8, "a file that isn't finished", FIVE, BEFORE_CLOSE, [FILE_OF_FIVE]),
]

CASES = {
    "a fault at each call delays one number": EACH_CALL,
    "what a fault delayed is stored in the next turn": RETRIES,
    "a failed write leaves half of its bytes": TORN,
}
