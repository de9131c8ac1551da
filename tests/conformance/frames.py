"""Frames, messages and replies, read and written by docs/FORMATS.md (Messages, Bad frames, Replies)."""
import struct
from typing import NamedTuple

OPEN, BLOCK, MARK, BEXT, CLOSE, ASK, BYE = 1, 2, 3, 4, 5, 6, 9
LONGEST_BODY, LONGEST_BLOCK, LONGEST_HISTORY, LONGEST_VALUE, LONGEST_NAME = 32_806, 32_768, 4_096, 256, 32
GREATEST_NUMBER = 16_777_215
NAME_BYTES = frozenset(b"abcdefghijklmnopqrstuvwxyz0123456789-_")
BYE_FRAME = bytes.fromhex("0100000009")

STORED, NAME_TAKEN, ALREADY_OPEN, NOT_OPEN, CLOSED, BAD_FORMAT, BAD_BLOCK, BAD_MARKER = range(8)
DUPLICATE_MARKER, TOO_MANY_MARKERS, BAD_FIELD, WRONG_TOTAL = range(8, 12)
HELD, TOO_FAR, CONFLICT, TABLE_FULL, NO_ROOM, DELAYED_STORE, NEXT = 32, 33, 34, 35, 36, 37, 39
LENGTH, KIND, NAME, NUMBER, PAYLOAD, CUT = range(1, 7)
VERDICT, NOTICE, BAD_FRAME = 0x81, 0x82, 0x83

VERDICTS = "Stored NameTaken AlreadyOpen NotOpen Closed BadFormat BadBlock BadMarker DuplicateMarker TooManyMarkers"
CODES = dict(enumerate([*VERDICTS.split(), "BadField", "WrongTotal"]))
CODES |= {HELD: "Held", TOO_FAR: "TooFar", CONFLICT: "Conflict", TABLE_FULL: "TableFull", NO_ROOM: "NoRoom"}
CODES |= {DELAYED_STORE: "DelayedStore", NEXT: "Next"}
REASONS = dict(enumerate(("Length", "Kind", "Name", "Number", "Payload", "Cut"), 1))


class Message(NamedTuple):
    """A message, an ask or BYE."""

    kind: int
    name: bytes = b""
    number: int = 0
    payload: bytes = b""

    @property
    def request(self):
        """What a repeat has in common with the first: its kind and its payload."""
        return bytes([self.kind]) + self.payload


class BadFrame(Exception):
    """Bytes that are no frame, with the reason."""


def little(number, width):
    return number.to_bytes(width, "little")


def framed(body):
    return little(len(body), 4) + body


def frame(name, number, request):
    """The frame of a request, which is a kind byte and its payload."""
    return framed(request[:1] + bytes([len(name)]) + name + little(number, 4) + request[1:])


def ask(name, number=0):
    return frame(name, number, bytes([ASK]))


def is_payload(kind, payload):
    """Whether these are exactly the payload of a kind."""
    size = len(payload)
    if kind == OPEN:
        history = int.from_bytes(payload[8:10], "little")
        return size >= 10 and history <= LONGEST_HISTORY and size == 10 + history
    if kind == BLOCK:
        return 1 <= size <= LONGEST_BLOCK
    if kind == BEXT:
        return 1 <= size <= 1 + LONGEST_VALUE
    return size == {MARK: 8, CLOSE: 8, ASK: 0}[kind]


def message_of(body):
    """The message that a frame's body spells, or the first reason why it is none."""
    kind, rest = body[0], body[1:]
    if kind not in (OPEN, BLOCK, MARK, BEXT, CLOSE, ASK, BYE):
        raise BadFrame(KIND)
    if kind == BYE:
        if rest:
            raise BadFrame(PAYLOAD)
        return Message(kind)
    length = rest[0] if rest else 0
    name, rest = rest[1 : 1 + length], rest[1 + length :]
    if not 1 <= length <= LONGEST_NAME or len(name) < length or not NAME_BYTES.issuperset(name):
        raise BadFrame(NAME)
    number = int.from_bytes(rest[:4], "little")
    if len(rest) < 4 or number > GREATEST_NUMBER:
        raise BadFrame(NUMBER)
    if not is_payload(kind, rest[4:]):
        raise BadFrame(PAYLOAD)
    return Message(kind, name, number, rest[4:])


class Stream:
    """The frames in the bytes of one exchange, however they are cut."""

    def __init__(self):
        self.held, self.offset = b"", 0

    def messages(self, piece):
        """The messages that are whole with this piece; raises BadFrame at the first bytes that are no frame."""
        self.held += piece
        while len(self.held) >= 4:
            length = int.from_bytes(self.held[:4], "little")
            if not 1 <= length <= LONGEST_BODY:
                raise BadFrame(LENGTH)
            if len(self.held) < 4 + length:
                return
            message = message_of(self.held[4 : 4 + length])
            self.held, self.offset = self.held[4 + length :], self.offset + 4 + length
            yield message


# Replies


def verdict(name, number, code):
    return frame(name, number, bytes([VERDICT, code]))


def notice(name, number, code, following):
    return frame(name, number, bytes([NOTICE, code]) + little(following, 4))


def bad_frame(reason, offset):
    return framed(bytes([BAD_FRAME, reason]) + little(offset, 8))


class Reply(NamedTuple):
    """A verdict, or a notice with the number that comes next."""

    name: bytes
    number: int
    code: int
    following: int | None = None


def reply_of(whole):
    """The verdict or notice in a whole frame, or None."""
    body = whole[4:]
    end = 2 + body[1] if len(body) > 1 else 0
    name, rest = body[2:end], body[end:]
    if body[:1] == bytes([VERDICT]) and len(rest) == 5:
        return Reply(name, *struct.unpack("<IB", rest))
    if body[:1] == bytes([NOTICE]) and len(rest) == 9:
        return Reply(name, *struct.unpack("<IBI", rest))
    return None


def words_of(whole):
    """A reply in words, or its bytes."""
    whole = bytes(it or 0 for it in whole)
    body = whole[4:]
    if len(body) == 10 and body[0] == BAD_FRAME:
        return f"bad frame {REASONS.get(body[1], body[1])} at {int.from_bytes(body[2:], 'little')}"
    reply = reply_of(whole)
    if reply is None:
        return f"the bytes {whole.hex()}"
    following = "" if reply.following is None else f", next {reply.following}"
    return f"{CODES.get(reply.code, reply.code)} ({reply.name.decode(errors='replace')} {reply.number}{following})"
