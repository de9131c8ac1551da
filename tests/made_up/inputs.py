"""Makes up requests, messages and bad frames, right and wrong, with what docs/FORMATS.md says of them."""
import struct
from collections import namedtuple

from kit.takes import ASK, BEXT, BLOCK, BYE_FRAME, CLOSE, LONGEST_BLOCK, MARK, NEXT, OPEN
from kit.takes import bad_frame, little, message, notice

WINDOW = 16
MOST_NAMES = 256
MOST_MARKERS = 1_024
LARGEST_NUMBER = 16_777_215
LONGEST_BODY = 32_806
HELD, TOO_FAR, CONFLICT, TABLE_FULL = range(32, 36)
LENGTH, KIND, NAME, NUMBER, PAYLOAD, CUT = range(1, 7)
NAME_BYTES = b"abcdefghijklmnopqrstuvwxyz0123456789-_"

Message = namedtuple("Message", "name number request")
Due = namedtuple("Due", "name number")  # a verdict that is still unknown
Exchange = namedtuple("Exchange", "data replies end")


# Requests, right and wrong


class Recording:
    """Makes the requests of a take, and keeps what a right one has to know of those before it."""

    def __init__(self, chance):
        self.chance = chance
        self.is_open = False
        self.align = 2
        self.frames = 0
        self.marks = []

    def requests(self):
        chance = self.chance
        made = [self.opening(chance.random() < 0.95)] if chance.random() < 0.93 else []
        kinds = (self.block, self.mark, self.field, self.opening, self.closing)
        makers = chance.choices(kinds, (50, 20, 20, 4, 2), k=12)
        made += [maker(chance.random() < 0.8) for maker in makers[: chance.randint(0, 12)]]
        if chance.random() < 0.002:
            made += [bytes([MARK]) + little(2_000 + mark, 4) + bytes(4) for mark in range(MOST_MARKERS + 2)]
        if chance.random() < 0.6:
            made.append(self.closing(chance.random() < 0.85))
            made += [maker(True) for maker in makers[: chance.choice((0, 0, 1, 2))]]
        return made

    def opening(self, is_right):
        chance = self.chance
        rate = chance.choice((1, 8_000, 44_100, 48_000, 96_000, 768_000))
        channels, bits = chance.choice((1, 1, 2, 6, 64)), chance.choice((16, 24, 32))
        length = chance.choice((0, 0, 0, 1, 7, 40, 4_096 if chance.random() < 0.05 else 2))
        history = bytearray(chance.choices(b"\r\n AZaz~", k=length))
        if not is_right:
            wrong = chance.randrange(4)
            rate = chance.choice((0, 768_001, 0xFFFFFFFF)) if wrong == 0 else rate
            channels = chance.choice((0, 65, 65_535)) if wrong == 1 else channels
            bits = chance.choice((0, 8, 17, 20, 64, 65_535)) if wrong == 2 else bits
            history += chance.choice((b"\x00", b"\x7f", b"\xff", b"\t")) if wrong == 3 else b""
        elif not self.is_open:
            self.is_open = True
            self.align = channels * bits // 8
        return bytes([OPEN]) + struct.pack("<IHHH", rate, channels, bits, len(history[:4_096])) + history[:4_096]

    def block(self, is_right):
        most = (LONGEST_BLOCK if self.chance.random() < 0.03 else 8 * self.align) // self.align
        length = self.align * self.chance.choice((most, self.chance.randint(1, most)))
        if is_right:
            self.frames += length // self.align
        else:
            length = self.chance.choice((1, length - 1, max(1, length - self.align // 2)))
        return bytes([BLOCK]) + self.chance.randbytes(length)

    def mark(self, is_right):
        frame = self.chance.choice((0, self.frames, self.chance.randint(0, self.frames)))
        number = self.chance.choice((0, 1, 0xFFFFFFFF, self.chance.getrandbits(32)))
        if not is_right and self.marks and self.chance.random() < 0.5:
            number = self.chance.choice(self.marks)
        elif not is_right:
            frame = self.chance.choice((self.frames + 1, 0xFFFFFFFF))
        self.marks.append(number)
        return bytes([MARK]) + little(number, 4) + little(frame, 4)

    def field(self, is_right):
        chance = self.chance
        tag = chance.randint(1, 12)
        value = right_value(chance, tag)
        if not is_right:
            wrong = chance.randrange(3)
            tag = chance.choice((0, 13, 255)) if wrong == 0 else tag
            value = value[:-1] if wrong == 1 else value
            value += chance.choice((b"\x00", b"\x1f", b"0", b"\xff")) if wrong == 2 else b""
        return bytes([BEXT, tag]) + value[:256]

    def closing(self, is_right):
        wrong = (self.frames + 1, max(0, self.frames - 1), (1 << 64) - 1)
        return bytes([CLOSE]) + little(self.frames if is_right else self.chance.choice(wrong), 8)


def right_value(chance, tag):
    """A value that a field may have."""
    if tag <= 3:
        width = 256 if tag == 1 else 32
        return bytes(chance.choices(range(32, 127), k=chance.choice((0, 1, 5, width - 1, width))))
    if tag in (4, 5):
        return chance.choice((b"", b"2031-02-28" if tag == 4 else b"23:59:58"))
    if tag in (6, 7):
        return chance.randbytes(8 if tag == 6 else 64) if tag == 6 or chance.random() < 0.8 else b""
    return chance.choice((b"", b"\xff\x7f", b"\x00\x00", chance.randbytes(2)))


# Messages as a bad network delivers them, and the replies to them


class Log:
    """The requests admitted under a name, and how many numbers are done."""

    def __init__(self):
        self.admitted = {}
        self.done = 0

    def requests(self):
        return [self.admitted[number] for number in range(self.done)]


def turn(book, received):
    """The replies to a message, with a Due for each verdict."""
    name, number, request = received
    log = book.get(name)
    if request[0] == ASK:
        return [notice(name, number, NEXT, log.done if log else 0)]
    if log is None and number >= WINDOW:
        return [notice(name, number, TOO_FAR, 0)]
    if log is None and len(book) >= MOST_NAMES:
        return [notice(name, number, TABLE_FULL, 0)]
    log = book.setdefault(name, Log())
    first = log.done
    if number < first + WINDOW:
        log.admitted.setdefault(number, request)
    while log.done in log.admitted:
        log.done += 1
    return [Due(name, done) for done in range(first, log.done)] + own_reply(log, first, received)


def own_reply(log, first, received):
    name, number, request = received
    if number >= first + WINDOW:
        return [notice(name, number, TOO_FAR, log.done)]
    if log.admitted[number] != request:
        return [notice(name, number, CONFLICT, log.done)]
    if number >= log.done:
        return [notice(name, number, HELD, log.done)]
    return [Due(name, number)] if number < first else []


def arrival(chance, name, requests):
    """A take's messages: reordered within the window, some of them twice, some with another body, some lost."""
    waiting = list(range(len(requests)))
    if waiting and chance.random() < 0.1:
        waiting.remove(chance.choice(waiting))
    arrived = []
    while waiting:
        number = waiting[0] if chance.random() < 0.6 else chance.choice(waiting[:WINDOW])
        if number < waiting[0] + WINDOW:
            waiting.remove(number)
            arrived.append(Message(name, number, requests[number]))
        if chance.random() < 0.4:
            arrived.append(extra(chance, name, requests, arrived))
    return arrived


def extra(chance, name, requests, arrived):
    """A message that changes nothing in the file."""
    kind = chance.random()
    if arrived and kind < 0.6:
        return chance.choice(arrived)
    if arrived and kind < 0.75:
        return Message(name, chance.choice(arrived).number, Recording(chance).block(True))
    if kind < 0.88:
        return Message(name, chance.randint(0, LARGEST_NUMBER), bytes([ASK]))
    far = chance.choice((len(requests) + WINDOW, LARGEST_NUMBER, chance.randint(len(requests) + WINDOW, 1 << 20)))
    return Message(name, far, chance.choice(requests) if requests else bytes([CLOSE]) + bytes(8))


def interleaved(chance, lists):
    """The lists' messages, each list in its own order."""
    turns = [place for place, part in enumerate(lists) for _ in part]
    chance.shuffle(turns)
    rest = [iter(part) for part in lists]
    return [next(rest[place]) for place in turns]


def exchanges_of(chance, kind, messages, book):
    """The messages in exchanges, of which some end as the kind says, with the replies to them."""
    made, place = [], 0
    while place < len(messages) or not made:
        part = messages[place : place + chance.randint(0, 12)]
        place += len(part)
        data = b"".join(message(*it) for it in part)
        replies = [reply for it in part for reply in turn(book, it)]
        more, last, end = ending(chance, kind, messages[place : place + 2] or messages[-1:], len(data))
        made.append(Exchange(data + more, replies + last, end))
    return made


def ending(chance, kind, following, place):
    """The bytes after an exchange's messages, the reply to them and the exchange's end."""
    more = b"".join(message(*it) for it in following)
    if kind == "cut" and more and chance.random() < 0.7:
        first = message(*following[0])
        return first[: chance.randrange(1, len(first))], [bad_frame(CUT, place)], "BadFrame"
    if kind == "garbage" and chance.random() < 0.7:
        reason, data = garbage(chance)
        is_last = reason in (CUT, None)
        return data if is_last else data + more, [bad_frame(reason or 0, place)], "BadFrame"
    if chance.random() < 0.2:
        return BYE_FRAME + chance.choice((b"", more, chance.randbytes(9))), [], "Bye"
    return b"", [], "EndOfInput"


# Bytes that are no frame


def framed(body):
    return little(len(body), 4) + body


def garbage(chance):
    """A reason and bytes that are bad for it; any reason if it is None."""
    return chance.choice((bad_length, bad_cut, bad_kind, bad_bye, bad_name, bad_number, bad_payload, any_bytes))(chance)


def bad_length(chance):
    length = chance.choice((0, LONGEST_BODY + 1, 0xFFFFFFFF, chance.randint(LONGEST_BODY + 1, 0xFFFFFFFF)))
    return LENGTH, little(length, 4) + chance.randbytes(chance.randint(0, 20))


def bad_cut(chance):
    length = chance.choice((1, LONGEST_BODY, chance.randint(2, LONGEST_BODY)))
    whole = little(length, 4) + chance.randbytes(min(length - 1, chance.randint(0, 60)))
    return CUT, whole[: chance.randint(1, len(whole))]


def bad_kind(chance):
    kind = chance.choice((0, 7, 8, 10, 255, chance.randint(10, 255)))
    return KIND, framed(bytes([kind]) + chance.randbytes(chance.randint(0, 30)))


def bad_bye(chance):
    return PAYLOAD, framed(b"\x09" + chance.randbytes(chance.randint(1, 9)))


def any_name(chance):
    return bytes(chance.choices(NAME_BYTES, k=chance.choice((1, 2, 9, 32))))


def bad_name(chance):
    name = any_name(chance)
    place = chance.randrange(len(name))
    wrong = name[:place] + bytes([chance.choice((0, 32, 46, 47, 65, 90, 255))]) + name[place + 1 :]
    rest = chance.choice(
        (
            b"",
            bytes([chance.choice((0, 33, 255))]) + name + bytes(12),
            bytes([len(name)]) + name[:-1],
            bytes([len(name)]) + wrong + bytes(12),
        )
    )
    return NAME, framed(bytes([chance.randint(1, 6)]) + rest)


def bad_number(chance):
    name = any_name(chance)
    number = chance.choice((LARGEST_NUMBER + 1, 0xFFFFFFFF, chance.randint(LARGEST_NUMBER + 1, 0xFFFFFFFF)))
    rest = chance.choice((chance.randbytes(chance.randint(0, 3)), little(number, 4) + bytes(8)))
    return NUMBER, framed(bytes([chance.randint(1, 6), len(name)]) + name + rest)


def bad_payload(chance):
    name = any_name(chance)
    opening = struct.pack("<IHHH", 48_000, 1, 16, 3)
    kind, payload = chance.choice(
        (
            (OPEN, opening[: chance.randint(0, 9)]),
            (OPEN, opening + bytes(chance.choice((0, 2, 4)))),
            (OPEN, struct.pack("<IHHH", 48_000, 1, 16, 4_097) + b" " * 4_097),
            (BLOCK, b""),
            (MARK, bytes(chance.choice((0, 7, 9)))),
            (BEXT, b""),
            (BEXT, b"\x01" + b" " * 257),
            (CLOSE, bytes(chance.choice((0, 7, 9)))),
            (ASK, b"\0"),
        )
    )
    if chance.random() < 0.05:
        name, kind, payload = b"a", BLOCK, bytes(LONGEST_BLOCK + 1)
    return PAYLOAD, framed(bytes([kind, len(name)]) + name + bytes(4) + payload)


def any_bytes(chance):
    return None, chance.randbytes(chance.randint(1, 60))
