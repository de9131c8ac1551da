"""Makes up files of any chunks, right and wrong, with the faults that docs/FORMATS.md names for them."""
from kit.forms import places_of, put_together
from kit.takes import little


def random_chunks(chance):
    """Each chunk as its id and its content; `fmt ` and `data` are among them once."""
    made = [(b"fmt ", chance.randbytes(chance.choice((16, 17, 18, 40))))]
    made.append((b"data", chance.randbytes(chance.randint(0, 50))))
    if chance.random() < 0.5:
        bext = bytearray(chance.randbytes(602 + chance.choice((0, 0, 1, 9))))
        bext[346:348] = little(chance.choice((0, 1, 2, 3, 65_535)), 2)
        bext[412:414] = chance.choice((b"\xff\x7f", b"\x00\x80", b"\x01\x00"))
        made.append((b"bext", bytes(bext)))
    if chance.random() < 0.5:
        points = chance.randint(0, 4)
        made.append((b"cue ", little(points, 4) + chance.randbytes(24 * points + chance.choice((0, 0, 5)))))
    for _ in range(chance.randint(0, 4)):
        name = chance.choice((b"LIST", b"JUNK", b"FMT ", b"\0\xff a", b"note"))
        made.append((name, chance.randbytes(chance.choice((0, 1, 2, 31)))))
    chance.shuffle(made)
    return made


def random_table(chance, form, parts):
    """Entries of `ds64` for some of the chunks; of two with one id the first counts."""
    if form == b"RIFF":
        return []
    first = {name: len(content) for name, content in reversed(parts) if name != b"data"}
    table = [entry for entry in first.items() if chance.random() < 0.4]
    return table + [(name, chance.getrandbits(64)) for name, _ in table if chance.random() < 0.3]


def wrong_file(chance, form, parts):
    """What is wrong, a file that has it, its fault and where this is."""
    wrongs = (twice, without, too_short, past_the_form, no_wave, too_many_points, no_size, too_many_chunks)
    wrong = chance.choice(wrongs if form == b"RIFF" else (*wrongs, *[wrong_sizes] * 4))
    return (wrong.__name__, *wrong(chance, form, parts))


def twice(chance, form, parts):
    known = [part for part in parts if part[0] in (b"fmt ", b"data", b"bext", b"cue ")]
    more = [*parts, chance.choice(known)]
    return put_together(form, more), "Twice", places_of(form, more)[-2]


def without(chance, form, parts):
    gone, fault = chance.choice(((b"fmt ", "NoFmt"), (b"data", "NoData")))
    data = put_together(form, [part for part in parts if part[0] != gone])
    return data, fault, len(data)


def with_other(chance, form, parts, name, content):
    """The file with this chunk somewhere, in place of what it has under that id, and the chunk's place."""
    left = [part for part in parts if part[0] != name]
    at = chance.randint(0, len(left))
    left.insert(at, (name, content))
    return put_together(form, left), places_of(form, left)[at]


def too_short(chance, form, parts):
    name, least, fault = chance.choice(((b"fmt ", 16, "BadFmt"), (b"bext", 602, "BadBext"), (b"cue ", 4, "BadCue")))
    length = chance.choice((0, least - 1, chance.randrange(least)))
    data, place = with_other(chance, form, parts, name, bytes(length))
    return data, fault, place


def too_many_points(chance, form, parts):
    points = chance.choice((1, 65_536, 65_537, 0xFFFFFFFF))
    data, place = with_other(chance, form, parts, b"cue ", little(points, 4) + bytes(23))
    return data, "BadCue" if points <= 65_536 else "TooMany", place


def with_size(form, parts, size):
    """The file with one chunk more, of ten bytes, that has this size; and the chunk's place."""
    more = [*parts, (b"more", bytes(10))]
    data, place = put_together(form, more), places_of(form, more)[-2]
    return data[: place + 4] + little(size, 4) + data[place + 8 :], place


def past_the_form(chance, form, parts):
    data, place = with_size(form, parts, chance.choice((11, 200, 0xFFFFFFFE)))
    return data, "Truncated", place


def no_size(chance, form, parts):
    """A size that `ds64` should have, and doesn't."""
    if form == b"RIFF" and chance.random() < 0.3:
        data = put_together(form, parts)
        return data[:4] + b"\xff" * 4 + data[8:], "NoSize", 4
    data, place = with_size(form, parts, 0xFFFFFFFF)
    return data, "NoSize", place


def no_wave(chance, form, parts):
    data = bytearray(put_together(form, parts))
    place = chance.choice((0, 1, 2, 3, 8, 9, 10, 11))
    data[place] ^= 1 << chance.choice((0, 5, 7))
    return bytes(data), "NotWave", 0 if place < 4 else 8


def too_many_chunks(chance, form, parts):
    """The form's end is looked at before the count: 4,096 chunks are read, and one more is too many."""
    more = parts + [(b"note", b"")] * (4_096 - len(parts) - (form != b"RIFF")) + [(b"last", b"")]
    return put_together(form, more), "TooMany", places_of(form, more)[-2]


def wrong_sizes(chance, form, parts):
    """A `ds64` that can't be."""
    data = put_together(form, parts)
    return chance.choice(
        (
            (data[:12] + chance.choice((b"junk", b"DS64", b"ds6\0")) + data[16:], "NoDs64", 12),
            (data[:16] + little(chance.choice((0, 27, 0xFFFFFFFF)), 4) + data[20:], "BadDs64", 12),
            (data[:44] + little(chance.choice((1, 4_096)), 4) + data[48:], "BadDs64", 12),
            (data[:44] + little(chance.choice((4_097, 0xFFFFFFFF)), 4) + data[48:], "TooMany", 12),
            (data[:20] + little((1 << 62) + 1, 8) + data[28:], "TooLarge", 4),
            (data[:20] + little(chance.randrange(4), 8) + data[28:], "NotWave", 4),
            (data[:20] + little(chance.randint(4, 39), 8) + data[28:], "Truncated", 12),
            (data[: chance.randint(20, 47)], "Truncated", 12),
            (data[: chance.randint(12, 19)], "NoDs64", 12),
        )
    )
