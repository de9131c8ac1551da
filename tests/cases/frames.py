"""Runs of `replay` over frames: an input that ends at each byte of a take, bytes that are no frame, and the longest."""
from kit.worked import BLOCK, broken, CLOSE, EMPTY_FILE, OPEN, Case, SMALL_FILE, stored, too_far

TAKE = bytes.fromhex(OPEN + BLOCK + CLOSE)  # frames of 22, 16 and 20 bytes


def cut(count):
    """The lines of an exchange that ends after this many bytes of the take."""
    begins = [at for at in (0, 22, 38, 58) if at <= count]
    replies = stored(*range(len(begins) - 1))
    if count == begins[-1]:
        return [f"exchange {count} EndOfInput", *replies]
    return [f"exchange {count} BadFrame", *replies, broken(6, begins[-1])]


CUTS = [
    Case(
        "each prefix of a take",
        "\n".join(TAKE[:count].hex() for count in range(59)),
        [line for count in range(59) for line in cut(count)],
        [SMALL_FILE],
    )
]

LENGTH, KIND, NAME, NUMBER, PAYLOAD, CUT = range(1, 7)

# Bytes that are no frame, and the first reason.
NO_FRAMES = [
    ("00000000", LENGTH),
    ("27800000", LENGTH),
    ("0100000007", KIND),
    ("03000000070141", KIND),
    ("020000000900", PAYLOAD),
    ("0100000001", NAME),
    ("080000000502413102000000", NAME),
    ("020000000221", NAME),
    ("2b0000000221" + 33 * "61" + "0100000001000200", NAME),
    ("020000000200", NAME),
    ("0400000002026131", NUMBER),
    ("0c000000020261310000000101000200", NUMBER),
    ("110000000302613102000000070000000200000000", PAYLOAD),
    ("080000000202613101000000", PAYLOAD),
    ("080000000402613101000000", PAYLOAD),
    ("09000000060261310000000000", PAYLOAD),
    ("13000000010261310000000080bb000001001000000000", PAYLOAD),
]

# What comes after bytes that are no frame isn't read.
FAULTS = [
    Case(
        "17 kinds of bytes, between two messages",
        "\n".join(OPEN + bad + OPEN for bad, _ in NO_FRAMES),
        [
            line
            for at, (_, reason) in enumerate(NO_FRAMES)
            for line in (f"exchange {at} BadFrame", *stored(0), broken(reason, 22))
        ],
        [EMPTY_FILE],
    ),
    Case(
        "a kind that no frame has, of which the body isn't whole",
        "1200000007",
        ["exchange 0 BadFrame", broken(CUT)],
    ),
]

# A block of 32,768 bytes under a name of 32 bytes, and the greatest number.
LONG_NAME = "abcdefghijklmnopqrstuvwxyz-0_9_z"
LONGEST = "268000000220" + LONG_NAME.encode().hex() + "ffffff00" + 32_768 * "07"
LONGEST_FRAMES = [
    Case("the longest frame", LONGEST, ["exchange 0 EndOfInput", too_far(0xFF_FF_FF, 0, LONG_NAME)]),
    Case("a byte more", "2780" + LONGEST[4:] + "07", ["exchange 0 BadFrame", broken(LENGTH)]),
]

CASES = {
    "an input that ends in a frame is cut where it begins": CUTS,
    "what is no frame has the first reason": FAULTS,
    "a frame has at most 32,806 bytes": LONGEST_FRAMES,
}
