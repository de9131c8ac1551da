"""Runs of `replay` whose messages are repeated, come in another order, in several exchanges, or after bad frames."""
from kit.worked import ASK, asked, BAD_EXCHANGE, BLOCK, broken, BYE, CLOSE, conflict, EMPTY_FILE, EXCHANGE, EXCHANGE_1
from kit.worked import held, judged, MARKED_FILE, OPEN, OTHER_BLOCK, Case, SMALL_FILE, stored

EXCHANGE_2, EXCHANGE_3 = "exchange 2 EndOfInput", "exchange 3 EndOfInput"

ORDERS = [
    Case(
        "the last first",
        CLOSE + BLOCK + OPEN,
        [EXCHANGE, held(2, 0), held(1, 0), *stored(0, 1, 2)],
        [SMALL_FILE],
    ),
    Case("the block last", OPEN + CLOSE + BLOCK, [EXCHANGE, *stored(0), held(2, 1), *stored(1, 2)], [SMALL_FILE]),
    Case(
        "the block in the next exchange",
        OPEN + CLOSE + "\n" + BLOCK + "\n",
        [EXCHANGE, *stored(0), held(2, 1), EXCHANGE_1, *stored(1, 2)],
        [SMALL_FILE],
    ),
    Case("a block that doesn't come", OPEN + CLOSE, [EXCHANGE, *stored(0), held(2, 1)], [EMPTY_FILE]),
    Case("a take that isn't opened yet", BLOCK + "\n" + CLOSE, [EXCHANGE, held(1, 0), EXCHANGE_1, held(2, 0)]),
]

REPEATS = [
    Case(
        "a block three times",
        OPEN + BLOCK + BLOCK + BLOCK + CLOSE,
        [EXCHANGE, *stored(0, 1, 1, 1, 2)],
        [SMALL_FILE],
    ),
    Case(
        "a block that waits, and comes again",
        CLOSE + BLOCK + BLOCK + OPEN + BLOCK,
        [EXCHANGE, held(2, 0), held(1, 0), held(1, 0), *stored(0, 1, 2, 1)],
        [SMALL_FILE],
    ),
    Case(
        "a take after its end",
        OPEN + BLOCK + CLOSE + "\n" + CLOSE + BLOCK + OPEN,
        [EXCHANGE, *stored(0, 1, 2), EXCHANGE_1, *stored(2, 1, 0)],
        [SMALL_FILE],
    ),
    Case(
        "OPEN in each exchange",
        OPEN + "\n" + OPEN + "\n" + OPEN,
        [EXCHANGE, *stored(0), EXCHANGE_1, *stored(0), EXCHANGE_2, *stored(0)],
        [EMPTY_FILE],
    ),
    Case(
        "OPEN under another number",
        OPEN + "12000000010261310100000080bb0000010010000000",
        [EXCHANGE, *stored(0), judged(1, 2)],
        [EMPTY_FILE],
    ),
]

OTHER_CLOSE = "1000000005026131020000000300000000000000"  # number 2: three frames in all
CONFLICTS = [
    Case(
        "another body for a stored number",
        OPEN + BLOCK + OTHER_BLOCK,
        [EXCHANGE, *stored(0, 1), conflict(1, 2)],
        [SMALL_FILE],
    ),
    Case(
        "another body for a number that waits",
        BLOCK + OTHER_BLOCK + OPEN,
        [EXCHANGE, held(1, 0), conflict(1, 0), *stored(0, 1)],
        [SMALL_FILE],
    ),
    Case(
        "another total, while the first waits and when it is stored",
        CLOSE + OTHER_CLOSE + BLOCK + OPEN + OTHER_CLOSE,
        [EXCHANGE, held(2, 0), conflict(2, 0), held(1, 0), *stored(0, 1, 2), conflict(2, 3)],
        [SMALL_FILE],
    ),
]

# A marker 7 after the second frame under number 2, and two frames in all under number 3.
MARK = "1000000003026131020000000700000002000000"
CLOSE_3 = "1000000005026131030000000200000000000000"
CUTS = [
    Case("one exchange", OPEN + BLOCK + MARK + CLOSE_3, [EXCHANGE, *stored(0, 1, 2, 3)], [MARKED_FILE]),
    Case(
        "four exchanges",
        OPEN + "\n" + BLOCK + "\n" + MARK + "\n" + CLOSE_3 + "\n",
        [EXCHANGE, *stored(0), EXCHANGE_1, *stored(1), EXCHANGE_2, *stored(2), EXCHANGE_3, *stored(3)],
        [MARKED_FILE],
    ),
    Case(
        "one exchange, backwards",
        CLOSE_3 + MARK + BLOCK + OPEN,
        [EXCHANGE, held(3, 0), held(2, 0), held(1, 0), *stored(0, 1, 2, 3)],
        [MARKED_FILE],
    ),
    Case(
        "an exchange that is cut off, and the rest of it",
        OPEN + BLOCK + "10000000" + "\n" + MARK + CLOSE_3,
        [BAD_EXCHANGE, *stored(0, 1), broken(6, 38), EXCHANGE_1, *stored(2, 3)],
        [MARKED_FILE],
    ),
]

ASKS = [
    Case("an empty server", ASK, [EXCHANGE, asked(0)]),
    Case("two numbers done", OPEN + BLOCK + ASK, [EXCHANGE, *stored(0, 1), asked(2)], [SMALL_FILE]),
    Case("numbers that wait", CLOSE + BLOCK + ASK, [EXCHANGE, held(2, 0), held(1, 0), asked(0)]),
    Case(
        "an ask between the messages of a take",
        CLOSE + BLOCK + ASK + "\n" + ASK + OPEN,
        [EXCHANGE, held(2, 0), held(1, 0), asked(0), EXCHANGE_1, asked(0), *stored(0, 1, 2)],
        [SMALL_FILE],
    ),
    # the number asked under is the sender's own matter
    Case(
        "the greatest number",
        OPEN + "0800000006026131ffffff00",
        [EXCHANGE, *stored(0), asked(1, 0xFF_FF_FF)],
        [EMPTY_FILE],
    ),
]

BAD_ASKS = [
    Case("an ask with a payload", "09000000060261310000000000", [BAD_EXCHANGE, broken(5)]),
    Case(
        "a number too great",
        OPEN + "080000000602613100000001",
        [BAD_EXCHANGE, *stored(0), broken(4, 22)],
        [EMPTY_FILE],
    ),
]

LINES = [
    Case(
        "a length of 0, one too long, and a message that is cut off",
        OPEN + "00000000" + "\n" + "27800000" + "\n" + "120000",
        [
            *(BAD_EXCHANGE, *stored(0), broken(1, 22)),
            *("exchange 1 BadFrame", broken(1)),
            *("exchange 2 BadFrame", broken(6)),
        ],
        [EMPTY_FILE],
    ),
    Case(
        "a message after a bad frame",
        OPEN + "00000000" + BLOCK + "\n" + BLOCK + CLOSE,
        [BAD_EXCHANGE, *stored(0), broken(1, 22), EXCHANGE_1, *stored(1, 2)],
        [SMALL_FILE],
    ),
    Case("bytes after BYE", OPEN + BYE + BLOCK + "ff", ["exchange 0 Bye", *stored(0)], [EMPTY_FILE]),
    Case(
        "messages after BYE, and an ask",
        OPEN + BYE + BLOCK + CLOSE + "\n" + ASK,
        ["exchange 0 Bye", *stored(0), EXCHANGE_1, asked(1)],
        [EMPTY_FILE],
    ),
    Case("a byte inside BYE", "020000000900", [BAD_EXCHANGE, broken(5)]),
    Case(
        "a dropped byte 13, an empty line, and digits in either case",
        OPEN + "\r\n\n0C000000020261310100000001000200\r\n" + CLOSE,
        [EXCHANGE, *stored(0), EXCHANGE_1, EXCHANGE_2, *stored(1), EXCHANGE_3, *stored(2)],
        [SMALL_FILE],
    ),
    Case("no line", "", []),
]

CASES = {
    "messages may come in any order": ORDERS,
    "what comes again is stored once": REPEATS,
    "the first body of a number stays": CONFLICTS,
    "a file doesn't depend on where exchanges end": CUTS,
    "the answer to an ask is what comes next": ASKS,
    "an ask has a number and no more": BAD_ASKS,
    "each line is an exchange": LINES,
}

# Inputs, and the number of the first line that isn't hex: nothing is run then.
NOT_HEX = [
    ("120", 1),
    (OPEN + "\n12 0\n", 2),
    ("0g", 1),
    (OPEN + "\r\r\n", 1),
    (OPEN + "\r", 1),
    (OPEN + "\n\n" + BLOCK + "\nzz\nzz\n", 4),
    (OPEN + "00000000\n0", 2),
]
