"""What `inspect --json` prints of a WAVE file, as a reader of its own finds it (docs/FORMATS.md, BS.2088, Tech 3306)."""
import hashlib
import uuid
from xml.parsers import expat

NOT_GIVEN = 0x7FFF
UNSAID = 0xFFFFFFFF
TEXTS = (("description", 0, 256), ("originator", 256, 32), ("reference", 288, 32), ("date", 320, 10), ("clock", 330, 8))
LEVELS = ("value", "range", "peak", "momentary", "short")
KEYS = ("at", "bext", "chunks", "contents", "cues", "data", "fault", "file", "fmt", "form", "form_hex", "ok", "sha256", "size")
TAGS = {1: "PCM", 3: "IEEE_FLOAT", 6: "ALAW", 7: "MULAW", 0xFFFE: "EXTENSIBLE"}
SPEAKERS = "FL FR FC LFE BL BR FLC FRC BC SL SR TC TFL TFC TFR TBL TBC TBR".split()
IXML_TEXTS = {"PROJECT": "project", "SCENE": "scene", "TAKE": "take", "TAPE": "tape", "NOTE": "ixml-note"}
TRACK_TEXTS = (("NAME", "track"), ("FUNCTION", "function"), ("CHANNEL_INDEX", "channel"))
NAMED = ("info", "cut", "malformed", "unread", "xml")  # what is printed with the id of its chunk
MOST_CHUNKS, MOST_BYTES = 64, 65_536  # of a file, of a chunk: what is read of contents


def number(file, at, length):
    return int.from_bytes(file[at : at + length], "little")


def text_of(bytes_):
    """A string, or None for what isn't UTF-8."""
    try:
        return bytes_.decode()
    except UnicodeDecodeError:
        return None


def milliseconds(frames, rate):
    return frames * 1_000 // rate if rate and frames * 1_000 // rate < 1 << 64 else None


def chunks_of(file):
    """Each chunk's id, the place of its head and the size of its content, and the form's size."""
    wide = file[:4] != b"RIFF"
    sizes = {}
    size = number(file, 4, 4)
    if wide:
        size = number(file, 20, 8) if size == UNSAID else size
        sizes[b"data"] = number(file, 28, 8)
        for entry in range(number(file, 44, 4)):
            sizes.setdefault(file[48 + 12 * entry : 52 + 12 * entry], number(file, 52 + 12 * entry, 8))
    found, at = [], 12
    while at + 8 <= 8 + size:
        name, length = file[at : at + 4], number(file, at + 4, 4)
        length = sizes[name] if length == UNSAID else length
        found.append((name, at, length))
        at += 8 + length + length % 2
    return found, size


def fmt_of(content):
    keys = (("tag", 2), ("channels", 2), ("rate", 4), ("bytes", 4), ("align", 2), ("bits", 2))
    found, at = {}, 0
    for key, width in keys:
        found[key] = number(content, at, width)
        at += width
    return found


def level_of(bits):
    return None if bits == NOT_GIVEN else bits - (bits >> 15 << 16)


def bext_of(content, rate):
    found = {}
    for key, at, width in TEXTS:
        text = content[at : at + width].split(b"\0")[0]
        found[key], found[key + "_hex"] = text_of(text), text.hex()
    time, version = number(content, 338, 8), number(content, 346, 2)
    levels = {key: level_of(number(content, 412 + 2 * at, 2)) for at, key in enumerate(LEVELS)}
    return found | {
        "history": len(content) - 602,
        "loudness": levels if version >= 2 else None,
        "time": time,
        "time_of_day": milliseconds(time, rate),
        "umid": content[348:412].hex(),
        "version": version,
    }


def cues_of(content, rate):
    found = []
    for at in range(4, 4 + 24 * number(content, 0, 4), 24):
        offset = number(content, at + 20, 4)
        found.append(
            {
                "id": number(content, at, 4),
                "position": number(content, at + 4, 4),
                "offset": offset,
                "ms": milliseconds(offset, rate),
            }
        )
    return found


def said(kind, name, text, point=None):
    """What a chunk says, as an object."""
    text = text.split(b"\0")[0]
    named = {"id": text_of(name), "id_hex": name.hex(), "kind": kind, "point": point}
    return named | {"text": text_of(text), "text_hex": text.hex()}


def format_said(content):
    """What `fmt ` says by numbers."""
    tag = number(content, 0, 2)
    yield said("tag", b"fmt ", f"WAVE_FORMAT_{TAGS[tag]}".encode() if tag in TAGS else b"")
    if tag == 0xFFFE and len(content) >= 40:
        mask, guid = number(content, 20, 4), content[24:40]
        names = [name for bit, name in enumerate(SPEAKERS) if mask >> bit & 1]
        yield said("speakers", b"fmt ", " ".join([f"{mask:08x}", *names]).encode())
        name = TAGS.get(number(guid, 0, 2)) if guid[2:] == bytes.fromhex("000000001000800000aa00389b71") else None
        words = [str(uuid.UUID(bytes_le=guid)), *([f"KSDATAFORMAT_SUBTYPE_{name}"] if name else [])]
        yield said("subformat", b"fmt ", " ".join(words).encode())


def list_said(content):
    """The texts of a `LIST`, by its type."""
    at = 4
    while at + 8 <= len(content):
        name, size = content[at : at + 4], number(content, at + 4, 4)
        text = content[at + 8 : at + 8 + size]
        if content[:4] == b"INFO":
            yield said("info", name, text)
        elif content[:4] == b"adtl" and name in (b"labl", b"note") and len(text) >= 4:
            yield said({b"labl": "label", b"note": "note"}[name], name, text[4:], number(text, 0, 4))
        at += 8 + size + size % 2


def elements_of(document):
    """The path and the text of each element of a document, as it ends."""
    path, text, found = [], [], []

    def start(name, _attributes):
        path.append(name)
        text.clear()

    def end(_name):
        found.append(("/".join(path), "".join(text).strip(" \t\r\n")))
        path.pop()
        text.clear()

    parser = expat.ParserCreate("UTF-8")
    parser.StartElementHandler, parser.EndElementHandler, parser.CharacterDataHandler = start, end, text.append
    parser.Parse(document, True)
    return found


def index_of(digits):
    return int(digits) if digits.isascii() and digits.isdigit() and int(digits) < 1 << 32 else None


def ixml_said(content, unread=None):
    """The texts of an `iXML` document, or why it isn't read, or that it isn't well-formed."""
    if unread:
        yield said("unread", b"iXML", unread.encode())
        return
    try:
        elements = elements_of(content.split(b"\0")[0])
    except expat.ExpatError:
        yield said("malformed", b"iXML", b"not well-formed")
        return
    track = {}
    for path, text in elements:
        *above, name = path.split("/")
        if path == "BWFXML/TRACK_LIST/TRACK":
            indices = (index_of(track.get(key, "")) for key in ("INTERLEAVE_INDEX", "CHANNEL_INDEX"))
            index = next((it for it in indices if it is not None), None)
            yield from (said(kind, b"iXML", track[key].encode(), index) for key, kind in TRACK_TEXTS if track.get(key))
            track = {}
        elif above == ["BWFXML", "TRACK_LIST", "TRACK"]:
            track[name] = text
        elif above == ["BWFXML"] and name in IXML_TEXTS and text:
            yield said(IXML_TEXTS[name], b"iXML", text.encode())


def why_unread(content):
    """Why an `iXML` document isn't read."""
    if content[:2] in (b"\xff\xfe", b"\xfe\xff", b"<\0", b"\0<"):
        return "UTF-16"
    if text_of(content.split(b"\0")[0]) is None:
        return "not UTF-8"
    return "document type declaration" if b"<!DOCTYPE" in content else None


def contents_of(file, chunks):
    """What the chunks say beside the report."""
    found = []
    for name, at, size in chunks[:MOST_CHUNKS]:
        content = file[at + 8 : at + 8 + min(size, MOST_BYTES)]
        if name == b"fmt ":
            found.extend(format_said(content))
        elif name == b"bext" and len(content) > 602:
            found.append(said("history", name, content[602:]))
        elif name == b"LIST":
            found.extend(list_said(content))
        elif name == b"iXML" and (size <= MOST_BYTES or b"\0" in content):
            found.extend(ixml_said(content, why_unread(content)))
        elif name in (b"axml", b"aXML"):
            found.append(said("xml", name, f"{size} bytes".encode()))
        if name in (b"fmt ", b"bext", b"LIST", b"iXML") and size > MOST_BYTES:
            found.append(said("cut", name, b"after 65536 bytes"))
    return found


def report(name, file, digest=False):
    """The object of a file without a fault; nothing is said of the contents of standard input."""
    chunks, size = chunks_of(file)
    contents = {}
    for chunk, at, length in chunks:
        contents.setdefault(chunk, (at + 8, file[at + 8 : at + 8 + length]))
    fmt = fmt_of(contents[b"fmt "][1])
    place, samples = contents[b"data"]
    frames = len(samples) // fmt["align"] if fmt["align"] else 0
    return {
        "file": name,
        "ok": True,
        "fault": None,
        "at": None,
        "form": text_of(file[:4]),
        "form_hex": file[:4].hex(),
        "size": size,
        "contents": contents_of(file, chunks) if name != "-" else None,
        "chunks": [{"id": text_of(i), "id_hex": i.hex(), "at": at, "size": length} for i, at, length in chunks],
        "fmt": fmt,
        "data": {"at": place, "bytes": len(samples), "frames": frames, "ms": milliseconds(frames, fmt["rate"])},
        "bext": bext_of(contents[b"bext"][1], fmt["rate"]) if b"bext" in contents else None,
        "cues": cues_of(contents[b"cue "][1], fmt["rate"]) if b"cue " in contents else [],
        "sha256": hashlib.sha256(samples).hexdigest() if digest else None,
    }


def clock(ms):
    """Milliseconds as hours, minutes and seconds."""
    if ms is None:
        return "unknown"
    seconds, part = divmod(ms, 1_000)
    return f"{seconds // 3_600}:{seconds // 60 % 60:02}:{seconds % 60:02}.{part:03}"


def hundredths(count, unit):
    return f"{'-' if count < 0 else ''}{abs(count) // 100}.{abs(count) % 100:02} {unit}"


def sized(count):
    """A number of bytes in the largest unit of which there is one, rounded down."""
    for shift, unit in ((30, "GiB"), (20, "MiB"), (10, "KiB")):
        if count >> shift:
            return hundredths((count * 100) >> shift, unit)
    return f"{count} B"


def shown(bytes_):
    """A text without control characters and backslashes; of one that isn't UTF-8, in ASCII alone."""
    most = 0x110000 if text_of(bytes_) is not None else 128
    units = text_of(bytes_) if most > 128 else bytes_.decode("latin-1")
    return "".join(f"\\x{ord(c):02x}" if ord(c) < 32 or c in "\x7f\\" or ord(c) >= most else c for c in units)


def visible(digits):
    """An id without blanks and control characters."""
    return "".join(chr(c) if 33 <= c <= 126 else "." for c in bytes.fromhex(digits))


def human(found):
    """What `inspect --human` prints of a file without a fault, from its object."""
    fmt, data, bext = found["fmt"], found["data"], found["bext"]
    tag = {1: "PCM", 3: "float", 0xFFFE: "extensible"}.get(fmt["tag"], f"tag {fmt['tag']}")
    channels = "1 channel" if fmt["channels"] == 1 else f"{fmt['channels']} channels"
    lines = [
        f"form {found['form']} {sized(found['size'])}",
        f"format {tag} {fmt['rate']} Hz {fmt['bits']} bits {channels}",
        f"duration {clock(data['ms'])}",
        f"samples {sized(data['bytes'])} {data['frames']} frames",
    ]
    if bext:
        for key in ("description", "originator", "reference", "date", "clock"):
            if bext[key + "_hex"]:
                lines.append(f"{key} {shown(bytes.fromhex(bext[key + '_hex']))}")
        lines.append(f"time of day {clock(bext['time_of_day'])}")
        names = (("loudness", "value", "LUFS"), ("loudness range", "range", "LU"), ("true peak", "peak", "dBTP"))
        for name, key, unit in (*names, ("momentary", "momentary", "LUFS"), ("short-term", "short", "LUFS")):
            if bext["loudness"]:
                level = bext["loudness"][key]
                lines.append(f"{name} {'unset' if level is None else hundredths(level, unit)}")
    lines.extend(f"marker {cue['id']} {clock(cue['ms'])}" for cue in found["cues"])
    lines.extend(f"chunk {visible(one['id_hex'])} {sized(one['size'])}" for one in found["chunks"])
    lines.extend([f"sha256={found['sha256']}"] if found["sha256"] else [])
    for one in found["contents"] or []:
        detail = f" {one['point']}" if one["point"] is not None else ""
        detail = f" {visible(one['id_hex'])}" if one["kind"] in NAMED else detail
        lines.extend([f"{one['kind']}{detail} {shown(bytes.fromhex(one['text_hex']))}"] if one["text_hex"] else [])
    return "".join(line + "\n" for line in lines)


def fault(name, kind, at):
    """The object of a file that has a fault, or can't be opened."""
    return dict.fromkeys(KEYS) | {"file": name, "ok": False, "fault": kind, "at": at}
