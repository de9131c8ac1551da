#!/usr/bin/env python3
"""Runs `inspect` of the built program on several files, and with its options.

The files are in cases/inspections.py and cases/recordings.py. What is printed in JSON is read by python's json, and
compared with what a reader of its own finds in the file (waves.py) and with the plain report. Files of ffmpeg and sox are
among them where these are installed. The program is the first argument, or the one of this repository. Prints what
differs, and last 'N passed, M failed'.
"""
import json
import shutil
import subprocess
import sys
import time

sys.dont_write_bytecode = True  # nothing is left beside this script
from cases import inspections as cases_of_inspections
from cases import ixml
from cases.recordings import PLAIN, SENT, TEXTS
from kit.hints import hinted
from kit.network import reason, run, run_cases, TALLY
from kit.recordings import bext, chunk, cue, data, extensible, FLOAT_SUBFORMAT, fmt, Recording, riff
from kit.takes import little
from kit.waves import fault, human, KEYS, report

LONGEST_RUN = 120  # seconds, for all of it
LARGE = 8 << 30  # the bytes of samples of a sparse file
QUICK = 0.1  # seconds: far less than it takes to read them

LOSSY = "Bäche é".encode("latin-1")
UNTIMED = fmt(Recording(rate=0))
ODD_FILES = [
    ("texts that aren't UTF-8", riff(fmt(PLAIN), bext((LOSSY, b"\xc0\xaf", b"\xed\xa0\x80")), data(PLAIN.samples))),
    ("texts that are UTF-8", riff(fmt(PLAIN), bext(("Bäche \U0001f30a".encode(), "é".encode())), data(PLAIN.samples))),
    ("control characters and quotes", riff(fmt(PLAIN), bext((bytes(range(1, 35)) + b'"\\/\x7f',)), data(b""))),
    ("an id that isn't UTF-8", riff(fmt(PLAIN), chunk(b"\xff\xfe\0\x22", b"x"), data(b"12"))),
    ("an id with quotes", riff(fmt(PLAIN), chunk(b'a"\\\n', b""), data(b"12"))),
    ("a rate of 0", riff(UNTIMED, bext(time=7), data(b"1234"), cue([(1, 2, 3)]))),
    ("frames of no bytes", riff(fmt(PLAIN, align=0), data(b"1234"))),
    ("the greatest time", riff(fmt(PLAIN), bext(TEXTS, (1 << 64) - 1, 2, levels=(-32768, -1, 0, 1, 32766)), data(b""))),
    ("a time of more than 64 bits in milliseconds", riff(fmt(Recording(rate=1)), bext(time=(1 << 64) - 1), data(b""))),
    ("cue points", riff(fmt(PLAIN), data(PLAIN.samples), cue([(n, n * 3, n * 47) for n in range(500)]))),
]
INFO = chunk(b"INAM", b"Owls\0") + chunk(b"IART", b"A. Field\0\0") + chunk(b"ICMT", "Fluß, \tlouder\\\0".encode())
ADTL = chunk(b"labl", little(7, 4) + b"first owl\0") + chunk(b"note", little(7, 4) + b"far away\0")
LENGTHY = chunk(b"LIST", b"INFO" + chunk(b"ICMT", b"x" * 65_531) + chunk(b"INAM", b"unseen"))
SURROUND = Recording(channels=6, bits=32)
CODING = b"A=PCM,F=48000,W=24,M=mono\r\nA=ANALOGUE\r\n"
SPOKEN = riff(
    extensible(SURROUND, mask=0x3F, subformat=FLOAT_SUBFORMAT),
    bext(TEXTS, history=CODING),
    data(bytes(24)),
    cue([(7, 0, 0)]),
    chunk(b"LIST", b"INFO" + INFO),
    chunk(b"LIST", b"adtl" + ADTL + chunk(b"ltxt", little(7, 4) + bytes(16))),
)
SAID = (
    "tag WAVE_FORMAT_EXTENSIBLE",
    "speakers 0000003f FL FR FC LFE BL BR",
    "subformat 00000003-0000-0010-8000-00aa00389b71 KSDATAFORMAT_SUBTYPE_IEEE_FLOAT",
    "history A=PCM,F=48000,W=24,M=mono\\x0d\\x0aA=ANALOGUE\\x0d\\x0a",
    "info INAM Owls",
    "info IART A. Field",
    "info ICMT Fluß, \\x09louder\\x5c",
    "label 7 first owl",
    "note 7 far away",
)
SPEAKING = [
    ("all contents", SPOKEN),
    ("each speaker", riff(extensible(PLAIN, mask=0xFFFFFFFF), data(b""))),
    ("no speaker, a subformat of another kind", riff(extensible(PLAIN, mask=0, subformat=bytes(range(16))), data(b""))),
    ("an extension that is short", riff(fmt(PLAIN, tag=0xFFFE, extension=bytes(21)), data(b""))),
    ("A-law and an unknown tag", riff(fmt(PLAIN, tag=6), data(b""))),
    ("an unknown tag", riff(fmt(PLAIN, tag=0x4321), data(b""))),
    ("texts that are odd", riff(fmt(PLAIN), chunk(b"LIST", b"INFO" + chunk(b"I\0\xff ", b"\xff\x01") + chunk(b"INAM", b"")), data(b""))),
    ("a list without a type", riff(fmt(PLAIN), chunk(b"LIST", b"INF"), data(b""))),
    ("a list of another type", riff(fmt(PLAIN), chunk(b"LIST", b"wavl" + INFO), data(b""))),
    ("a text past the end of its list", riff(fmt(PLAIN), chunk(b"LIST", b"INFOINAM\xff\xff\xff\xffcut off"), data(b""))),
    ("a head past the end of its list", riff(fmt(PLAIN), chunk(b"LIST", b"INFO" + INFO + b"INAM\4\0\0"), data(b""))),
    ("a label without a cue point", riff(fmt(PLAIN), chunk(b"LIST", b"adtl" + chunk(b"labl", b"abc") + ADTL), data(b""))),
    ("a list of more than is read", riff(fmt(PLAIN), LENGTHY, data(b""))),
    ("a history of more than is read", riff(fmt(PLAIN), bext(history=b"A=PCM\r\n" * 10_000), data(b""))),
    ("a history with a zero byte", riff(fmt(PLAIN), bext(history=b"A=PCM\r\n\0rest"), data(b""))),
    *((f"iXML, {of}", riff(fmt(PLAIN), chunk(b"iXML", document), data(b""))) for of, document in ixml.DOCUMENTS),
    *((f"iXML, {of}", riff(fmt(PLAIN), chunk(b"iXML", document), data(b""))) for of, document in ixml.NO_DOCUMENTS),
    *((f"iXML, {of}", riff(fmt(PLAIN), chunk(b"iXML", document), data(b""))) for of, _, document in ixml.UNREAD),
    ("iXML of more than is read", riff(fmt(PLAIN), chunk(b"iXML", ixml.CUT), data(b""))),
    ("other chunks of XML", riff(fmt(PLAIN), chunk(b"axml", b"<a>"), chunk(b"aXML", bytes(70_000)), chunk(b"_PMX", b"<a/>"), data(b""))),
    ("more chunks than are looked at", riff(fmt(PLAIN), data(b""), *[chunk(b"LIST", b"INFO" + INFO)] * 64)),
]
READABLE = [
    *((one.of, one.file) for one in cases_of_inspections.REPORTS),
    *((one.of, one.file) for one in SENT),
    *ODD_FILES,
    *SPEAKING,
]
FAULTS = cases_of_inspections.FAULTS[::23] + cases_of_inspections.FAULTS[-16:]


def written(folder, file, name):
    """The path of a file with these bytes."""
    path = folder / name
    path.write_bytes(file)
    return str(path)


def objects(out):
    """The objects that are printed, a line each."""
    return [json.loads(line) for line in out.splitlines()]


def kind_and_place(text):
    kind, place = text.split(" at ")
    return kind, int(place)


def case_json(folder):
    """Each file in JSON has what a reader of its own finds in it."""
    for at, (of, file) in enumerate(READABLE):
        path = written(folder, file, f"{at}.wav")
        status, out, faults = run("inspect", "--json", path)
        TALLY.same(f"--json, {of}", (status, objects(out), faults), (0, [report(path, file)], ""))


def case_json_text(folder):
    """A line has no blank outside texts, its keys in order, and integers alone."""
    for at, (of, file) in enumerate(READABLE):
        path = written(folder, file, f"{at}.wav")
        _, out, _ = run("inspect", "--json", path)
        wanted = json.dumps(report(path, file), separators=(",", ":"), sort_keys=True, ensure_ascii=False)
        TALLY.same(f"the text of --json, {of}", out, wanted.replace("\\u007f", "\x7f") + "\n")


def plain_of(found):
    """The plain report's lines of numbers, from an object."""
    lines = [f"form {found['form']} {found['size']}"]
    for one in found["chunks"]:
        visible = "".join(chr(c) if 33 <= c <= 126 else "." for c in bytes.fromhex(one["id_hex"]))
        lines.append(f"chunk {visible} {one['at']} {one['size']}")
    lines.append("fmt " + " ".join(f"{key}={found['fmt'][key]}" for key in ("tag", "channels", "rate", "bytes", "align", "bits")))
    lines.append("data " + " ".join(f"{key}={found['data'][key]}" for key in ("at", "bytes", "frames")))
    if bext_ := found["bext"]:
        lines.append(f"bext version={bext_['version']} time={bext_['time']} history={bext_['history']}")
        lines.extend(f"{key}={escaped(bext_[key + '_hex'])}" for key in ("description", "originator", "reference", "date", "clock"))
        lines.append(f"umid={bext_['umid']}")
        if levels := bext_["loudness"]:
            said = (f"{key}={'unset' if levels[key] is None else levels[key]}" for key in ("value", "range", "peak", "momentary", "short"))
            lines.append("loudness " + " ".join(said))
    lines.extend(f"cue id={one['id']} position={one['position']} offset={one['offset']}" for one in found["cues"])
    return "".join(line + "\n" for line in lines)


def escaped(digits):
    """The plain report's spelling of a text."""
    return "".join(chr(c) if 32 <= c <= 126 and c != 92 else f"\\x{c:02x}" for c in bytes.fromhex(digits))


def case_plain(folder):
    """The plain report has the same values."""
    for at, (of, file) in enumerate(READABLE):
        path = written(folder, file, f"{at}.wav")
        _, out, _ = run("inspect", "--json", path)
        status, plain, faults = run("inspect", path)
        TALLY.same(f"plain, {of}", (status, plain, faults), (0, plain_of(objects(out)[0]), ""))


def case_faults(folder):
    """A file with a fault has an object too, and the status 1."""
    for at, (of, file, said) in enumerate(FAULTS):
        path = written(folder, file, f"{at}.wav")
        status, out, faults = run("inspect", "--json", path)
        TALLY.same(f"--json, {of}", (status, objects(out), faults), (1, [fault(path, *kind_and_place(said))], ""))


def case_several(folder):
    """Several files have a line or a report each, in their order; the status is the highest."""
    good = written(folder, READABLE[0][1], "good.wav")
    cut = written(folder, cases_of_inspections.SMALL_FILE[:100], "cut.wav")
    none = str(folder / "none.wav")
    text = cases_of_inspections.REPORTS[0].text
    unopened = f"{none} can't be opened: {reason(2)}\n"
    entries = {
        good: (0, f"file {good}\n{text}", report(good, READABLE[0][1]), ""),
        cut: (1, f"file {cut}\nfault Truncated at 72\n", fault(cut, "Truncated", 72), ""),
        none: (3, f"file {none}\nfault Open\n", fault(none, "Open", None), unopened),
    }
    for paths in ((good, cut), (cut, good), (good, good), (good, none, cut), (none, none), (cut, none, good, good)):
        found = [entries[path] for path in paths]
        worst, said = max(one[0] for one in found), "".join(one[3] for one in found)
        of = " ".join(path.rsplit("/", 1)[1] for path in paths)
        TALLY.same(f"several, {of}", run("inspect", *paths), (worst, "".join(one[1] for one in found), said))
        for words in (("--json", *paths), (*paths, "--json")):
            status, out, faults = run("inspect", *words)
            TALLY.same(f"several --json, {of}", (status, objects(out), faults), (worst, [one[2] for one in found], said))


def case_one(folder):
    """One file without an option is reported as ever: no name, and the fault on standard error."""
    path = written(folder, b"RIFX", "a.wav")
    TALLY.same("one file", run("inspect", path), (1, "", hinted("inspect", "NotWave at 0")))


def case_other_formats(folder):
    """A file of another format is refused as ever, and the hint names the format."""
    for of, file, hint in cases_of_inspections.OTHER_FORMATS:
        path = written(folder, file, "a.wav")
        for command in ("inspect", "pack", "picture"):
            TALLY.same(f"{command}, {of}", run(command, path), (1, "", hinted(command, "NotWave at 0", hint)))
        TALLY.same(f"inspect -, {of}", run("inspect", "-", given=file), (1, "", hinted("inspect", "NotWave at 0", hint)))
        TALLY.same(f"several, {of}", run("inspect", path, path)[1], f"file {path}\nfault NotWave at 0\n" * 2)


def case_digest(folder):
    """With --digest the SHA-256 of the samples alone is there, as hashlib computes it."""
    for at, (of, file) in enumerate(READABLE):
        path = written(folder, file, f"{at}.wav")
        wanted = report(path, file, digest=True)
        status, out, faults = run("inspect", "--json", "--digest", path)
        TALLY.same(f"--json --digest, {of}", (status, objects(out), faults), (0, [wanted], ""))
        status, out, faults = run("inspect", "--digest", path)
        TALLY.same(f"--digest, {of}", (status, out, faults), (0, plain_of(wanted) + f"sha256={wanted['sha256']}\n", ""))


def case_digest_compares(folder):
    """Two files with the same samples and other headers have one digest; the last sample counts."""
    samples = bytes(range(256)) * 1_000
    files = [riff(fmt(PLAIN), data(samples)), riff(fmt(PLAIN), bext(TEXTS), data(samples), cue([(1, 2, 3)]))]
    files.append(riff(fmt(PLAIN), data(samples[:-1] + b"x")))
    digests = []
    for at, file in enumerate(files):
        _, out, _ = run("inspect", "--json", "--digest", written(folder, file, f"{at}.wav"))
        digests.append(objects(out)[0]["sha256"])
    TALLY.same("one digest", (digests[0] == digests[1], digests[0] == digests[2]), (True, False))


def case_digest_of_a_pipe(folder):
    """A pipe can't be read again: that is reported, and no digest is made up."""
    file = READABLE[0][1]
    status, out, faults = run("inspect", "--digest", "/dev/stdin", given=file)
    TALLY.same("--digest of a pipe", (status, out.split(" at ")[0], faults), (3, "fault Read", ""))


def case_digest_of_faults(folder):
    """A file with a fault has no digest."""
    path = written(folder, cases_of_inspections.SMALL_FILE[:100], "cut.wav")
    TALLY.same("--digest, cut", run("inspect", "--digest", path), (1, "fault Truncated at 72\n", ""))
    status, out, _ = run("inspect", "--digest", "--json", path)
    TALLY.same("--digest --json, cut", (status, objects(out)), (1, [fault(path, "Truncated", 72)]))


def case_human(folder):
    """The report for people has the values of the one in JSON, with their units."""
    for at, (of, file) in enumerate(READABLE):
        path = written(folder, file, f"{at}.wav")
        TALLY.same(f"--human, {of}", run("inspect", "--human", path), (0, human(report(path, file)), ""))
        status, out, faults = run("inspect", "--human", "--digest", path)
        TALLY.same(f"--human --digest, {of}", (status, out, faults), (0, human(report(path, file, digest=True)), ""))


def case_human_values(folder):
    """Worked values: an hour and odd seconds, a level of -23.00, and sizes at the edges of units."""
    form = Recording(rate=1_000)
    file = riff(fmt(form), bext(TEXTS, 3_723_456, 2, levels=(-2_300, 700, -100, -5, 0x7FFF)), data(bytes(2 * 1_023)))
    _, out, _ = run("inspect", "--human", written(folder, file, "a.wav"))
    for line in (
        "time of day 1:02:03.456",
        "duration 0:00:01.023",
        "loudness -23.00 LUFS",
        "loudness range 7.00 LU",
        "true peak -1.00 dBTP",
        "momentary -0.05 LUFS",
        "short-term unset",
        "samples 1.99 KiB 1023 frames",
        "chunk bext 602 B",
    ):
        TALLY.holds("--human", line in out.split("\n"), f"has no line {line!r} in {out!r}")


def case_human_several(folder):
    """Several files have a line with the name each, and faults among them."""
    good = written(folder, READABLE[0][1], "good.wav")
    cut = written(folder, cases_of_inspections.SMALL_FILE[:100], "cut.wav")
    wanted = f"file {good}\n{human(report(good, READABLE[0][1]))}file {cut}\nfault Truncated at 72\n"
    TALLY.same("--human, several", run("inspect", "--human", good, cut), (1, wanted, ""))


def case_contents(folder):
    """Worked contents are lines after all others, and objects in JSON; a pipe's are unknown."""
    path = written(folder, SPOKEN, "a.wav")
    _, out, _ = run("inspect", "--human", path)
    TALLY.same("--human, contents", tuple(out.split("\n")[-len(SAID) - 1 : -1]), SAID)
    _, out, _ = run("inspect", "--json", path)
    kinds = [line.split()[0] for line in SAID]
    TALLY.same("--json, contents", [one["kind"] for one in objects(out)[0]["contents"]], kinds)
    named = {"id": "labl", "id_hex": "6c61626c", "kind": "label", "point": 7}
    wanted = named | {"text": "first owl", "text_hex": "6669727374206f776c"}
    TALLY.same("--json, a label", objects(out)[0]["contents"][7], wanted)
    status, out, faults = run("inspect", "--json", "/dev/stdin", given=SPOKEN)
    TALLY.same("--json, a pipe", (status, objects(out)[0]["contents"], faults), (0, None, ""))


def lines_of_ixml(folder, document):
    """The lines after the chunks' own with --human, and the status, of a file with this `iXML`."""
    path = written(folder, riff(fmt(PLAIN), chunk(b"iXML", document), data(b"")), "a.wav")
    status, out, faults = run("inspect", "--human", path)
    lines = out.splitlines()
    return status, tuple(lines[lines.index("tag WAVE_FORMAT_PCM") + 1 :]), faults


def case_ixml(folder):
    """Worked `iXML` is lines; one that isn't read or isn't well-formed is a line, and no fault of the file."""
    for of, document, wanted in (
        ("as Sound Devices", ixml.INDENTED, ixml.INDENTED_LINES),
        ("as Zoom", ixml.PADDED, ixml.PADDED_LINES),
        ("of more than is read", ixml.CUT, ("cut iXML after 65536 bytes",)),
        *((of, document, ("malformed iXML not well-formed",)) for of, document in ixml.NO_DOCUMENTS),
        *((of, document, (f"unread iXML {why}",)) for of, why, document in ixml.UNREAD),
    ):
        TALLY.same(f"--human, iXML {of}", lines_of_ixml(folder, document), (0, wanted, ""))


def case_input(folder):
    """Standard input has the same report as a file with its bytes, but for contents."""
    for of, file in READABLE:
        path = written(folder, file, "a.wav")
        TALLY.same(f"-, {of}", run("inspect", "-", given=file), run("inspect", path))
        status, out, faults = run("inspect", "--json", "-", given=file)
        TALLY.same(f"- --json, {of}", (status, objects(out), faults), (0, [report("-", file)], ""))
        TALLY.same(f"- --human, {of}", run("inspect", "--human", "-", given=file), (0, human(report("-", file)), ""))
    for of, file, said in FAULTS:
        TALLY.same(f"-, {of}", run("inspect", "-", given=file), (1, "", hinted("inspect", said)))
        status, out, faults = run("inspect", "-", "--json", given=file)
        TALLY.same(f"- --json, {of}", (status, objects(out), faults), (1, [fault("-", *kind_and_place(said))], ""))


def case_names(folder):
    """A name with control characters can't make a line of its own; in JSON it is as it was given."""
    for name in ("a\nfile b", "a\\b\x7f\x1b[2J", "Bäche.wav", " "):
        path = written(folder, cases_of_inspections.SMALL_FILE, name)
        said = "".join(f"\\x{ord(c):02x}" if ord(c) < 32 or c in "\x7f\\" else c for c in path)
        _, out, _ = run("inspect", path, path)
        TALLY.same(f"the name {name!r}", [line for line in out.split("\n") if line.startswith("file ")], [f"file {said}"] * 2)
        _, out, _ = run("inspect", "--json", path)
        TALLY.same(f"the name {name!r} in JSON", objects(out)[0]["file"], path)


def case_keys(folder):
    """Each object has each key, in the same order."""
    for of, file in (READABLE[0], READABLE[2], ("a fault", b"")):
        path = written(folder, file, "a.wav")
        _, out, _ = run("inspect", "--json", path)
        TALLY.same(f"the keys, {of}", tuple(json.loads(out)), KEYS)


def case_many(folder):
    """A thousand files have a thousand lines."""
    paths = [written(folder, READABLE[at % 40 % len(READABLE)][1], f"{at}.wav") for at in range(1_000)]
    status, out, _ = run("inspect", "--json", *paths)
    TALLY.same("a thousand files", (status, [one["file"] for one in objects(out)]), (0, paths))


def case_sparse(folder):
    """8 GiB of samples are passed over, and not read."""
    path = folder / "large.wav"
    ds64 = b"ds64" + little(28, 4) + little(LARGE + 72, 8) + little(LARGE, 8) + bytes(12)
    head = b"RF64\xff\xff\xff\xffWAVE" + ds64 + fmt(PLAIN) + b"data\xff\xff\xff\xff"
    with path.open("wb") as file:
        file.write(head)
        file.truncate(len(head) + LARGE)
    took = []
    for _ in range(10):
        began = time.monotonic()
        status, out, faults = run("inspect", "--json", str(path))
        took.append(time.monotonic() - began)
    found = objects(out)[0]
    TALLY.same("8 GiB", (status, found["data"], faults), (0, {"at": len(head), "bytes": LARGE, "frames": LARGE >> 1, "ms": LARGE // 96}, ""))
    TALLY.holds("8 GiB", min(took) < QUICK, f"took {min(took) * 1_000:.1f} ms at best")


def made_by(folder, name, *words):
    """The bytes of a file that another program makes."""
    path = folder / name
    subprocess.run([*words, str(path)], check=True, stdout=subprocess.DEVNULL, stderr=subprocess.DEVNULL)
    return str(path), path.read_bytes()


def case_foreign(folder):
    """Files of ffmpeg and sox, where they are installed."""
    made = []
    if shutil.which("ffmpeg"):
        tone = ("ffmpeg", "-y", "-f", "lavfi", "-i", "sine=d=1:r=48000", "-bitexact")
        for codec in ("pcm_s16le", "pcm_s24le", "pcm_s32le", "pcm_f32le", "pcm_u8", "pcm_alaw"):
            made.append((f"ffmpeg, {codec}", made_by(folder, f"{codec}.wav", *tone, "-c:a", codec)))
        words = ("-write_bext", "1", "-metadata", "description=Fluß am Abend", "-metadata", "time_reference=123456789")
        made.append(("ffmpeg, bext", made_by(folder, "bext.wav", *tone, *words)))
        words = ("-ac", "6", "-metadata", "title=Owls", "-metadata", "comment=near the river")
        made.append(("ffmpeg, INFO and speakers", made_by(folder, "info.wav", *tone, *words)))
        made.append(("ffmpeg, RF64", made_by(folder, "rf64.wav", *tone, "-rf64", "always")))
    if shutil.which("sox"):
        for bits in (8, 16, 24, 32):
            words = ("sox", "-n", "-r", "44100", "-b", str(bits), "-c", "2", "-e", "signed" if bits > 8 else "unsigned")
            path = str(folder / f"sox{bits}.wav")
            subprocess.run([*words, path, "synth", "0.5", "sine", "440"], check=True, stderr=subprocess.DEVNULL)
            made.append((f"sox, {bits} bits", (path, (folder / f"sox{bits}.wav").read_bytes())))
    for of, (path, file) in made:
        status, out, faults = run("inspect", "--json", path)
        TALLY.same(of, (status, objects(out), faults), (0, [report(path, file)], ""))


def case_usage(_folder):
    """Without a file nothing is inspected, nor two ways at once, nor standard input twice."""
    for words in ((), ("--json",), ("--json", "--human", "a"), ("--digest", "-"), ("-", "a"), ("a", "-"), ("-", "-")):
        status, out, _ = run("inspect", *words)
        TALLY.same(f"inspect {' '.join(words)}", (status, out), (2, ""))


CASES = [
    case_json,
    case_json_text,
    case_plain,
    case_faults,
    case_several,
    case_one,
    case_other_formats,
    case_digest,
    case_digest_compares,
    case_digest_of_a_pipe,
    case_digest_of_faults,
    case_human,
    case_human_values,
    case_human_several,
    case_contents,
    case_ixml,
    case_input,
    case_names,
    case_keys,
    case_many,
    case_sparse,
    case_foreign,
    case_usage,
]

if __name__ == "__main__":
    sys.exit(run_cases(CASES, LONGEST_RUN))
