"""Files of any chunks, and of takes, with their reports, as docs/FORMATS.md lays them out."""
import struct

from kit.takes import BEXT, BLOCK, CLOSE, MARK, OPEN, chunk, little

# The place and the width of each field of `bext`, by its tag.
FIELD_PLACES = {1: (0, 256), 2: (256, 32), 3: (288, 32), 4: (320, 10), 5: (330, 8), 6: (338, 8), 7: (348, 64)}


def put_together(form, parts, table=()):
    """The file of these chunks, each an id and its content. The table of `ds64` has the size of the first of an id."""
    length = sum(8 + len(content) + len(content) % 2 for _, content in parts)
    if form == b"RIFF":
        return form + little(4 + length, 4) + b"WAVE" + b"".join(chunk(*part) for part in parts)
    data = next((content for name, content in parts if name == b"data"), b"")
    entries = b"".join(name + little(size, 8) for name, size in table)
    size = 4 + 36 + len(entries) + length
    sizes = little(size, 8) + little(len(data), 8) + bytes(8) + little(len(table), 4) + entries
    made = [form + b"\xff" * 4 + b"WAVE" + chunk(b"ds64", sizes)]
    sized = {name for name, _ in table} | {b"data"}
    for name, content in parts:
        made.append(chunk(name, content, 0xFFFFFFFF if name in sized else None))
        sized.discard(name)
    return b"".join(made)


def places_of(form, parts, table=()):
    """The place of each chunk, and the end of the form."""
    places = [12 if form == b"RIFF" else 48 + 12 * len(table)]
    for _, content in parts:
        places.append(places[-1] + 8 + len(content) + len(content) % 2)
    return places


def report_of(form, parts, table=()):
    """What `inspect` reports of the file that put_together makes."""
    places = places_of(form, parts, table)
    lines = [f"form {form.decode()} {places[-1] - 8}"]
    lines += [] if form == b"RIFF" else [f"chunk ds64 12 {28 + 12 * len(table)}"]
    for (name, content), place in zip(parts, places):
        lines.append(f"chunk {''.join(chr(it) if 33 <= it <= 126 else '.' for it in name)} {place} {len(content)}")
    at = {name: place + 8 for (name, _), place in zip(parts, places)}
    contents = dict(parts)
    tag, channels, rate, second, align, bits = struct.unpack("<HHIIHH", contents[b"fmt "][:16])
    lines.append(f"fmt tag={tag} channels={channels} rate={rate} bytes={second} align={align} bits={bits}")
    length = len(contents[b"data"])
    lines.append(f"data at={at[b'data']} bytes={length} frames={length // align if align else 0}")
    lines += lines_of_bext(contents[b"bext"]) if b"bext" in contents else []
    points = contents.get(b"cue ", bytes(4))
    for place in range(4, 4 + 24 * int.from_bytes(points[:4], "little"), 24):
        number, position, *_, offset = struct.unpack("<6I", points[place : place + 24])
        lines.append(f"cue id={number} position={position} offset={offset}")
    return "".join(line + "\n" for line in lines).encode()


def lines_of_bext(content):
    version, time_reference = int.from_bytes(content[346:348], "little"), int.from_bytes(content[338:346], "little")
    yield f"bext version={version} time={time_reference} history={len(content) - 602}"
    for name, tag in (("description", 1), ("originator", 2), ("reference", 3), ("date", 4), ("clock", 5)):
        place, width = FIELD_PLACES[tag]
        text = content[place : place + width].split(b"\0")[0]
        shown = (chr(it) if 32 <= it <= 126 and it != 92 else f"\\x{it:02x}" for it in text)
        yield f"{name}={''.join(shown)}"
    yield f"umid={content[348:412].hex()}"
    if version >= 2:
        levels = struct.unpack("<5h", content[412:422])
        names = ("value", "range", "peak", "momentary", "short")
        shown = (f"{name}={'unset' if level == 0x7FFF else level}" for name, level in zip(names, levels))
        yield f"loudness {' '.join(shown)}"


def parts_of(stored):
    """The chunks that stored requests make after the first one, or None if no OPEN was stored."""
    opening = next((request for request in stored if request[0] == OPEN), None)
    if opening is None:
        return None
    rate, channels, bits, _ = struct.unpack("<IHHH", opening[1:11])
    align = channels * bits // 8
    numbers = struct.pack("<HHIIHH", 1, channels, rate, rate * align, align, bits)
    data = b"".join(request[1:] for request in stored if request[0] == BLOCK)
    parts = [(b"fmt ", numbers), (b"bext", bext_of(stored) + opening[11:]), (b"data", data)]
    marks = [request[1:] for request in stored if request[0] == MARK]
    if marks and any(request[0] == CLOSE for request in stored):
        points = b"".join(mark + b"data" + bytes(8) + mark[4:] for mark in marks)
        parts.append((b"cue ", little(len(marks), 4) + points))
    return parts


def form_of(stored, limit):
    """The form and the chunks of the file that stored requests make."""
    parts = parts_of(stored)
    if parts is None:
        return None
    narrow = [(b"JUNK", bytes(28)), *parts]
    return (b"RIFF", narrow) if places_of(b"RIFF", narrow)[-1] - 8 <= limit else (b"BW64", parts)


def bext_of(stored):
    fields = {request[1]: request[2:] for request in stored if request[0] == BEXT}
    content = bytearray(602)
    for tag, (place, width) in FIELD_PLACES.items():
        content[place : place + width] = fields.get(tag, b"").ljust(width, b"\0")
    levels = [fields.get(tag) or b"\xff\x7f" for tag in range(8, 13)]
    content[346:348] = little(1, 2)
    if any(level != b"\xff\x7f" for level in levels):
        content[346:348] = little(2, 2)
        content[412:422] = b"".join(levels)
    return bytes(content)
