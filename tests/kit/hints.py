"""What the program says below the line of a fault: what to do about it; and why nothing of an upload goes."""
import re

CONVERT = "hint: no WAVE file: convert FLAC, AIFF, W64 and others: ffmpeg -i OLD -c:a pcm_s24le NEW.wav\n"
NO_BYTES = "hint: nothing of it can be read: it may be a directory\n"
MEND = "hint: its sizes are wrong, as where a recorder was cut off: see bwingest repair FILE\n"
NOT_PCM = "hint: samples that are no PCM aren't taken: ffmpeg -i OLD -c:a pcm_s24le NEW.wav\n"
SHORT = "hint: --skip passes over more bytes than the file has\n"
LONG_HISTORY = "hint: history has more than 4096 bytes: without --strict-texts it is cut\n"
CUES_LEFT = "hint: not all cue points are kept: without --strict-texts the others are left out\n"
LOSSY = (
    "Lossy: no message carries what is listed above\n"
    "hint: without --strict the rest is taken; --strict-texts refuses only cleaned texts and lost cue points\n"
)
KEYS = (
    "': KEY is description, originator, reference, date, clock, time, umid, history, value, range, peak, momentary"
    " or short\n"
)
OTHER_NAME = (
    "hint: another recording has this name: use another, or give that one up: bwingest takes --folder DIR --give-up"
    " NAME\n"
)
LOST_TAKE = "hint: the server hasn't the take any more: send it again under another name\n"

USAGE = "\nUsage: bwingest <COMMAND>\n\nFor more information, try '--help'.\n"

HINTS = (
    (r"NotWave at 0", CONVERT),
    (r"NotWave at 4|NoSize at \d+|Truncated at \d+", MEND),
    (r"Read at 0", NO_BYTES),
)

CHANGED = "Changed: the file isn't any more what it was\n"
FRUITLESS = "Fruitless: as many links in a row as are allowed settled nothing\n"
REFUSED = "send: connection refused\n"
TIMED_OUT = "send: timed out: the server doesn't answer\n"
CLOSED = "send: the server closed the connection\n"
STORE_FAILS = "send: the server's store fails (DelayedStore)\n"
TABLE_FULL = "send: the server's table of names is full (TableFull)\n"
OUTAGES = (
    REFUSED,
    TIMED_OUT,
    "send: the server can't be reached\n",
    "send: no connection can be made\n",
    CLOSED,
    "send: the connection broke off\n",
    "send: what the server sent is no reply (BadReply)\n",
    STORE_FAILS,
    TABLE_FULL,
    "send: the server has no memory (NoRoom)\n",
    "send: the server found bytes that are no frame (BadFrame)\n",
)


def converted(what):
    """The hint for a file of another format."""
    return f"hint: {what} file: convert it: ffmpeg -i OLD -c:a pcm_s24le NEW.wav\n"


def floats(bits):
    return f"hint: {bits}-bit float samples aren't taken: ffmpeg -i OLD -c:a pcm_s24le NEW.wav\n"


def unclean_byte(key, offset, byte):
    return f"hint: {key} has byte {byte} at {offset}: without --strict-texts it is cleaned\n"


def unclean_form(key):
    return f"hint: {key} has another form: without --strict-texts it is cleaned or left out\n"


def bad_setting(key):
    """What is said of a text that is no setting, whose key is shown so."""
    return f"a value of '--set' isn't KEY=VALUE, or isn't allowed\nhint: in '{key}{KEYS}"


def hinted(command, fault, given=""):
    """The line of a fault, and below it the given hint, or that of the fault. To `repair` sizes are no news."""
    if given:
        return f"{command}: {fault}\n{given}"
    for pattern, hint in HINTS:
        if re.fullmatch(pattern, fault) and not (command == "repair" and hint == MEND):
            return f"{command}: {fault}\n{hint}"
    return f"{command}: {fault}\n"


def without_outages(text):
    """What is on standard error but for why nothing is settled, which depends on the time."""
    return "".join(line for line in text.splitlines(keepends=True) if line not in OUTAGES)


def outages_in(text):
    """The other lines of it."""
    return [line for line in text.splitlines(keepends=True) if line in OUTAGES]
