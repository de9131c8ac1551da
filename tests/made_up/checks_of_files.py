"""What `inspect` must say of the files of made-up takes, of what is made of these, and of files of any chunks."""
import re

from made_up.checked_runs import done_well, holds, in_memory, run, same
from kit.forms import form_of, places_of, put_together, report_of
from made_up.files import random_chunks, random_table, wrong_file
from kit.hints import hinted
from kit.takes import chunk, little

FAULT_LINE = (
    r"inspect: (NotWave|Truncated|NoDs64|BadDs64|NoSize|Twice|NoFmt|NoData|BadFmt|BadBext|BadCue|TooMany|TooLarge)"
    r" at (\d+)\n(hint: .*\n)?"
)


def inspected(data, through_pipe=False):
    """Inspects a file; a fault must be one of the documents', at most the head of a chunk past the end of the file."""
    if through_pipe:
        ended = run("inspect", "/dev/stdin", given=data)
    else:
        with in_memory("inspected") as file:
            file.write(data)
            file.flush()
            ended = run("inspect", "/dev/stdin", given=file)
    if ended.status == 0:
        holds("the report ends with an end of a line", ended.out.endswith(b"\n"))
    else:
        found = re.fullmatch(FAULT_LINE, ended.faults)
        holds(f"the fault line {ended.faults!r}", ended.status == 1 and found)
        holds(f"{ended.faults!r} in {len(data)} bytes", int(found[2]) <= len(data) + 8)
    return ended


def same_fault(what, ended, fault, place):
    same(what, (ended.status, ended.faults), (1, hinted("inspect", f"{fault} at {place}")))


def check_file(case, name, limit, whole):
    """A file that was printed has the report of its take."""
    form, parts = form_of(case.stored(name), limit)
    ended = inspected(whole, case.chance.random() < 0.1)
    same(f"the report of {name}", done_well(ended), report_of(form, parts))
    return ended.out.decode(), 8 + places_of(form, parts)[[part[0] for part in parts].index(b"data")]


def check_changed(case, name, limit, whole):
    """A file made of it has the report of its take too, or the fault that the change brings."""
    report, place = check_file(case, name, limit, whole)
    changes = (cut_file, cut_file, longer_file, other_samples, one_more_chunk, other_bytes, other_bytes)
    case.chance.choice(changes)(case.chance, whole, report, place)


def chunks_in(report):
    """Each chunk's place, and where its content ends."""
    found = re.findall(r"^chunk \S{4} (\d+) (\d+)$", report, re.MULTILINE)
    return [(int(place), int(place) + 8 + int(size)) for place, size in found]


def cut_file(chance, whole, report, _place):
    ends = [end + more for _, end in chunks_in(report) for more in (-1, 0, 1, 7)]
    most = len(whole) - 1
    length = chance.choice((chance.randint(0, most), chance.randint(0, min(most, 100)), min(most, chance.choice(ends))))
    ended = inspected(whole[:length], chance.random() < 0.2)
    place = next((place for place, end in chunks_in(report) if end > length), None)
    if length < 12:
        same_fault(f"cut at {length}", ended, "NotWave", 0)
    elif length < 20 and whole.startswith(b"BW64"):
        same_fault(f"cut at {length}", ended, "NoDs64", 12)
    elif place is not None:
        same_fault(f"cut at {length}", ended, "Truncated", place)
    else:  # a last pad byte is all that is missing
        same(f"cut at {length}", done_well(ended).decode(), report)


def longer_file(chance, whole, report, _place):
    more = chance.choice((b"\0", b"data" + bytes(9), whole, chance.randbytes(chance.randint(1, 99))))
    ended = inspected(whole + more, chance.random() < 0.2)
    same(f"{len(more)} bytes after the form", done_well(ended).decode(), report)


def other_samples(chance, whole, report, place):
    """A report doesn't depend on samples, their pad byte and the content of JUNK."""
    length = next(end for at, end in chunks_in(report) if at == place - 8) - place
    changed = bytearray(whole)
    changed[place : place + length + length % 2] = chance.randbytes(length + length % 2)
    if whole.startswith(b"RIFF"):
        changed[20:48] = chance.randbytes(28)
    same("other samples", done_well(inspected(bytes(changed))).decode(), report)


def one_more_chunk(chance, whole, report, _place):
    """An unknown chunk is listed, and moves what follows it."""
    chunks = chunks_in(report)
    place = chance.choice([at for at, _ in chunks if at >= 48] + [len(whole)])
    content = chance.randbytes(chance.choice((0, 1, 8, 33)))
    more = chunk(b"note", content)
    is_wide = whole.startswith(b"BW64")
    form = little(len(whole) - 8 + len(more), 8)
    changed = whole[:20] + form + whole[28:] if is_wide else whole[:4] + form[:4] + whole[8:]
    ended = inspected(changed[:place] + more + changed[place:], chance.random() < 0.2)
    wanted = moved_report(report, place, len(more), f"chunk note {place} {len(content)}")
    same(f"a chunk at {place}", done_well(ended).decode(), wanted)


def moved_report(report, place, by, line):
    def moved(found):
        at = int(found[2])
        head = at if found[1].startswith("chunk") else at - 8
        return f"{found[1]}{at + by if head >= place else at}{found[3]}"

    lines = report.split("\n")
    lines[0] = re.sub(r"\d+$", lambda found: str(int(found[0]) + by), lines[0])
    lines = [re.sub(r"^(chunk \S{4} |data at=)(\d+)( )", moved, it) for it in lines]
    before = sum(int(it.split(" ")[2]) < place for it in lines if it.startswith("chunk "))
    lines.insert(1 + before, line)
    return "\n".join(lines)


def other_bytes(chance, whole, _report, _place):
    """Any bytes; most of them in the header. The answer is the same of a file and of a pipe."""
    changed = bytearray(whole)
    for _ in range(chance.choice((1, 1, 2, 5))):
        near = chance.choice((90, len(whole)))
        place = chance.choice((chance.randrange(near), 4, 7, 16, 19, 52, 76, 418, 686))
        changed[place] = chance.choice((0, 1, 0x7F, 0xFF, changed[place] ^ 1 << chance.randrange(8)))
    ended = inspected(bytes(changed))
    if chance.random() < 0.3:
        same("through a pipe", inspected(bytes(changed), True), ended)


def check_chunks(case, _folder):
    chance = case.chance
    form = chance.choice((b"RIFF", b"BW64", b"RF64"))
    parts = random_chunks(chance)
    if chance.random() < 0.4:
        table = random_table(chance, form, parts)
        ended = inspected(put_together(form, parts, table), chance.random() < 0.2)
        same("the report", done_well(ended), report_of(form, parts, table))
    else:
        what, changed, fault, place = wrong_file(chance, form, parts)
        same_fault(what, inspected(changed, chance.random() < 0.2), fault, place)
