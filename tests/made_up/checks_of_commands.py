"""What made-up rehearsals, lines of `replay` and command lines must end with."""
import os
import re

from made_up.checked_runs import done_well, holds, replay, run, same
from made_up.inputs import Recording
from kit.repository import ROOT
from kit.takes import ASK, BYE_FRAME, message

NO_EVENTS = ("send  0", "send +0", "send 00000000000", "send 4294967296", "offer", "offer 06", "offer 02", "ask ", "")
NO_EVENTS += ("Send 0", "offer 0", "deliver", "bring x", "offer 0201000200zz", "\x00", "send 0\r\r", "éé")
# Of each command its options, with values right and wrong. No folder of them can be used, so that nobody listens.
OPTIONS = {
    "replay": {"--limit": ("8192", "x", "1"), "--fuse": ("0", "-", "99999999999")},
    "rehearse": {"--name": ("a1", "A", ""), "--limit": ("4294967294", "8193")},
    "serve": {
        "--listen": ("127.0.0.1:4100", "nobody", "[::1]:1"),
        "--folder": ("missing", "", "whole.wav", "whole.wav/missing"),
        "--exchanges": ("1", "0"),
        "--limit": ("8192", "8190"),
        "--timeout": ("1", "86401"),
        "--network": None,
        "--until-stopped": None,
        "--log": None,
    },
    "send": {
        "--connect": ("127.0.0.1:1", "127.0.0.1:0"),
        "--name": ("a1", "a.1"),
        "--rounds": ("1", "1001"),
        "--timeout": ("1", "0"),
        "--network": None,
    },
    "inspect": {},
}
OTHER_WORDS = ("help", "--", "-", "-x", "--no", "whole.wav", "cut.wav", "missing.wav", "/dev/null", "=", "--limit=")
OTHER_WORDS += ("--name=a", "a1", "8192", "\udcff", "--version", "-V", "-h", "--help", "--help=1", "\u00e9", "x" * 300)


def check_rehearsal(case, _folder):
    """Any events: the first of the offered requests are done, and the file is that of a replay of these."""
    chance, name = case.chance, "a_rehearsal"
    recording = Recording(chance)
    requests = [recording.opening(True)] + [recording.block(chance.random() < 0.7) for _ in range(chance.randint(0, 6))]
    requests += [recording.mark(True), recording.field(True), recording.closing(True)][: chance.randint(0, 3)]
    moves = ["send 0", "send 0", f"send {chance.randint(0, 9)}", "deliver {}", "deliver {}", "bring {}", "bring 99"]
    lines = [f"offer {request.hex()}" for request in requests]
    for _ in range(chance.randint(0, 60)):
        lines.append(chance.choice((*moves, "ask")).format(chance.randint(0, len(lines) // 3)))
    if chance.random() < 0.2:
        at = chance.randint(0, len(lines))
        lines.insert(at, chance.choice(NO_EVENTS))
        ended = run("rehearse", "--name", name, given="\n".join([*lines, ""]).encode())
        same("the line", (ended.status, ended.faults), (1, f"line {at + 1}: not an event\n"))
    else:
        same_world(name, requests, lines, done_well(run("rehearse", "--name", name, given="\n".join(lines).encode())))


def same_world(name, requests, lines, out):
    counts = r"offered (\d+) sent (\d+) replies (\d+)\ndone (\d+) settled (\d+) stored (\d+)\n"
    found = re.fullmatch(counts + rf"(?:file {name} (\d+)\n(\w+)\n)?", out.decode())
    holds(f"the text of a rehearsal: {out[:200]!r}", found)
    offered, sent, _, done, settled, stored = map(int, found.groups()[:6])
    same("what is offered", offered, len(requests))
    holds("what is sent", sent <= sum(line.startswith("send ") for line in lines))
    holds(f"settled {settled}, done {done}, offered {offered}", settled <= done <= offered)
    messages = b"".join(message(name, number, request) for number, request in enumerate(requests[:done]))
    replayed = replay([messages])
    replies = replayed.exchanges[0][1:]
    same("the replies of a replay", len(replies), done)
    same("what is stored", stored, sum(reply.endswith("00") for reply in replies[:settled]))
    same("the file", bytes.fromhex(found[8]) if found[8] else None, replayed.files.get(name))


def check_lines(case, _folder):
    """Lines of hex in another spelling are the same exchanges; the first that is no hex is reported."""
    chance = case.chance
    asks = [message("a", number, bytes([ASK])) for number in range(chance.randint(0, 5))]
    asks += [b"", BYE_FRAME, chance.randbytes(chance.randint(0, 9))]
    chance.shuffle(asks)
    lines = [data.hex() for data in asks]
    plain = run("replay", given="\n".join(lines).encode())
    spelled = [line.upper() if chance.random() < 0.5 else line for line in lines]
    spelled = [line + chance.choice(("\n", "\r\n")) for line in spelled]
    same("another spelling", run("replay", given="".join(spelled).encode()), done_and(plain, lines))
    at = chance.randrange(len(spelled))
    spelled[at] = chance.choice(("0", "zz", "0x00", " 00", "00 ", "00\r\r", "\r\r", "é", "0\x000", "+0")) + "\n"
    ended = run("replay", given="".join(spelled).encode())
    same("a line that is no hex", (ended.status, ended.faults), (1, f"line {at + 1}: not hex\n"))


def done_and(plain, lines):
    text = done_well(plain).decode()
    count = len(lines) if lines[-1] else len(lines) - 1  # the last line has no end
    same("how many exchanges", len(re.findall("^exchange ", text, re.MULTILINE)), count)
    more = "" if lines[-1] else f"exchange {count} EndOfInput\n"
    return plain._replace(out=(text + more).encode())


def check_words(case, folder):
    chance = case.chance
    write_examples(folder)
    before = sorted(os.listdir(folder))
    try:
        chance.choice((any_words, any_words, help_somewhere, other_order))(chance, folder)
    finally:
        same("the files in the folder", sorted(os.listdir(folder)), before)


def write_examples(folder):
    whole = (ROOT / "examples/a1.wav").read_bytes()
    (folder / "whole.wav").write_bytes(whole)
    (folder / "cut.wav").write_bytes(whole[:600])


def any_words(chance, folder):
    """Any words end well; `run` looks at status and streams."""
    options = [option for own in OPTIONS.values() for option in own.items()]
    words = [word for option, values in options for word in (option, *(values or ()))]
    line = [chance.choice((*OPTIONS, *OTHER_WORDS))] + chance.choices((*words, *OTHER_WORDS), k=chance.randint(0, 5))
    if chance.random() < 0.5:
        line[0] = chance.choice(list(OPTIONS))
    ended = run(*line, folder=folder)
    statuses = {0, 1, 2, 3} if line[0] in ("inspect", "--") else {0, 2, 3}
    holds(f"{line}: status {ended.status}", ended.status in statuses)


def options_of(chance, command, are_right):
    """Some of a command's options, each with its value."""
    made = []
    for option, values in OPTIONS[command].items():
        value = values and (values[0] if are_right else chance.choice(values))
        if chance.random() < 0.6 or (are_right and option == "--name"):
            is_apart = values and (chance.random() < 0.5 and not value.startswith("-"))
            made.append([option, value] if is_apart else [option if values is None else f"{option}={value}"])
    return made


def help_somewhere(chance, folder):
    """Help between any two options is the command's help, whatever values these have and whichever are missing."""
    command = chance.choice(list(OPTIONS))
    groups = options_of(chance, command, False)
    chance.shuffle(groups)
    groups.insert(chance.randint(0, len(groups)), [chance.choice(("--help", "-h"))])
    line = [command, *(word for group in groups for word in group)]
    wanted = done_well(run(command, "--help", folder=folder))
    holds(f"help on {command}", b"Usage: bwingest " + command.encode() in wanted)
    same(f"{line}", done_well(run(*line, folder=folder)), wanted)


def other_order(chance, folder):
    """Options in another order are the same command."""
    command = chance.choice(("replay", "rehearse"))
    groups = options_of(chance, command, True)
    line = [command, *(word for group in groups for word in group)]
    chance.shuffle(groups)
    other = [command, *(word for group in groups for word in group)]
    same(f"{other}", run(*other, folder=folder), run(*line, folder=folder))
