"""What a replay must say of made-up takes, and the files that it must leave of them."""
import re

from made_up.checked_runs import holds, replay, same
from made_up.inputs import Due, exchanges_of, Message, MOST_NAMES
from kit.takes import BEXT, BLOCK, CLOSE, DELAYED_STORE, LARGEST_LIMIT, MARK, OPEN, STORED, verdict

CLOSED, NOT_OPEN = 4, 3


def same_verdicts(requests, codes):
    """Each verdict is possible for its request after the ones before."""
    possible = {OPEN: {2}, BLOCK: {0, 6}, MARK: {0, 7, 8, 9}, BEXT: {0, 10}, CLOSE: {0, 11}}
    is_open = is_closed = False
    for number, (request, code) in enumerate(zip(requests, codes)):
        kind = request[0]
        if is_closed:
            wanted = {CLOSED}
        elif is_open:
            wanted = possible[kind]
        else:
            wanted = {0, 5} if kind == OPEN else {NOT_OPEN}
        holds(f"number {number}, of kind {kind}, has the verdict {code}, and none of {wanted}", code in wanted)
        is_open |= kind == OPEN and code == STORED
        is_closed |= kind == CLOSE and code == STORED


def same_files(case, what, replayed, limit):
    wanted = case.files(limit)
    found = {name: replayed.files[name] for name in case.book if name in replayed.files}
    same(f"{what}: the names of the files", sorted(found), sorted(wanted))
    for name, data in wanted.items():
        same(f"{what}: the file {name}", found[name], data)


def check_in_order(case, replayed, place):
    """The first run: a verdict for each message, and the files that these make."""
    lines = replayed.exchanges[place]
    same("in order: the end", lines[0], f"exchange {place} EndOfInput")
    replies = [bytes.fromhex(line.removeprefix("reply ")) for line in lines[1:]]
    messages = case.in_order()
    same("in order: how many replies", len(replies), len(messages))
    case.codes = {name: [] for name in case.book}
    for sent, reply in zip(messages, replies):
        same(f"in order: the reply to {sent.number}", reply, verdict(sent.name, sent.number, reply[-1]))
        case.codes[sent.name].append(reply[-1])
    for name, log in case.book.items():
        same_verdicts(log.requests(), case.codes[name])
    same_files(case, "in order", replayed, LARGEST_LIMIT)


def check_exchanges(case, replayed, first):
    """The second run: the case's own exchanges."""
    for place, exchange in enumerate(case.exchanges):
        found = replayed.exchanges[first + place]
        wanted = [f"exchange {first + place} {exchange.end}"]
        for reply in exchange.replies:
            is_due = isinstance(reply, Due)
            known = verdict(*reply, case.codes[reply.name][reply.number]) if is_due else reply
            wanted.append(f"reply {known.hex()}")
        if found != wanted and exchange.end == "BadFrame" and wanted[-1].startswith("reply 0a0000008300"):
            last = found[-1]  # for any bytes each reason is possible
            holds(f"exchange {place}: the reason in {last}", re.match(r"reply 0a000000830[1-6]", last))
            wanted[-1] = wanted[-1][:16] + last[16:18] + wanted[-1][18:]
        same(f"exchange {place}: its lines", found, wanted)
    same_files(case, "its exchanges", replayed, LARGEST_LIMIT)


def same_replies(found, wanted):
    """All verdicts again; a message that the fault left over has its own twice."""
    same("the replies again", sorted(set(found)), sorted(set(wanted)))


def is_delay(line):
    """The line of a notice with the code DelayedStore, before the last four bytes."""
    return line.startswith("82", len("reply ") + 8) and line[-10:-8] == f"{DELAYED_STORE:02x}"


def check_names(case, _folder):
    """More names than a server takes: those that it has continue, and the others are refused."""
    chance = case.chance
    names = [f"{place}-{chance.choice('abc')}" for place in range(MOST_NAMES + chance.randint(1, 9))]
    messages = [Message(name, 0, bytes([CLOSE]) + bytes(8)) for name in names]
    messages += [Message(chance.choice(names), chance.randint(0, 20), bytes([CLOSE]) + bytes(8)) for _ in range(40)]
    case.exchanges = exchanges_of(chance, "turns", messages, case.book)
    case.codes = {name: [NOT_OPEN] * log.done for name, log in case.book.items()}
    check_exchanges(case, replay([exchange.data for exchange in case.exchanges]), 0)
