"""Runs the cases of try_malformed, many of them together in one replay, and says which show a fault."""
import random

from made_up.checked_runs import ENDLESS, Fault, holds, replay
from made_up.checks_of_commands import check_lines, check_rehearsal, check_words
from made_up.checks_of_files import check_changed, check_chunks, check_file
from made_up.checks_of_takes import check_exchanges, check_in_order, check_names, is_delay, same_files, same_replies
from made_up.cases import Case
from kit.takes import LARGEST_LIMIT, message

LEAST_LIMIT = 8_192
ALONE = {"chunks": check_chunks, "rehearsal": check_rehearsal, "words": check_words, "lines": check_lines}
ALONE["names"] = check_names
FAULTS = (Fault, OSError, ValueError, LookupError, MemoryError)  # also what can't be read as it should


def run_batch(seed, numbers, folder):
    """The faults of these cases, each with its number; after a run that doesn't end no further case is tried."""
    cases = [Case(seed, number) for number in numbers]
    faults = faults_together(seed, [case for case in cases if case.exchanges], folder)
    for case in cases:
        if case.kind in ALONE and not is_endless(faults):
            faults += faults_in(case, ALONE[case.kind], case, folder)
    return faults


def is_endless(faults):
    return any(ENDLESS in text for _, text in faults)


def faults_together(seed, cases, folder):
    """Those of the cases that go through replays; if a replay as a whole is at fault, each case is tried alone."""
    try:
        return run_together(seed, cases)
    except FAULTS as fault:
        if len(cases) == 1:
            return [(cases[0].number, f"{cases[0].kind}: {fault}")]
        found = []
        for case in cases:
            if not is_endless(found):
                found += run_batch(seed, [case.number], folder)
        return found or [(cases[0].number, f"only together with others up to {cases[-1].number}: {fault}")]


def faults_in(case, check, *given):
    try:
        check(*given)
    except FAULTS as fault:
        kind = "" if isinstance(fault, Fault) else f"{type(fault).__name__}: "
        return [(case.number, f"{case.kind}: {kind}{fault}")]
    return []


def run_together(seed, cases):
    """The cases that go through the four replays; one that shows a fault goes no further."""
    if not cases:
        return []
    chance = random.Random(f"{seed} together {cases[0].number}")
    inputs = [b"".join(message(*it) for it in case.in_order()) for case in cases]
    limit = chance.randrange(LEAST_LIMIT, 20_000, 2)
    fuse = chance.randint(0, sum(len(case.in_order()) for case in cases))
    in_order = replay(inputs)
    own = replay([exchange.data for case in cases for exchange in case.exchanges])
    again = replay(inputs + inputs, "--fuse", str(fuse))
    limited = replay(inputs, f"--limit={limit}")
    delays = sum(is_delay(line) for lines in again.exchanges for line in lines)
    holds(f"{delays} messages are delayed by the failure of call {fuse} of the store", delays <= 1)
    faults, first = [], 0
    for place, case in enumerate(cases):
        found = faults_in(case, check_in_order, case, in_order, place)
        found = found or faults_in(case, check_exchanges, case, own, first)
        replies = in_order.exchanges[place][1:]
        found = found or faults_in(case, same_replies, again.exchanges[len(cases) + place][1:], replies)
        found = found or faults_in(case, same_replies, limited.exchanges[place][1:], replies)
        found = found or faults_in(case, same_files, case, f"twice, with --fuse {fuse}", again, LARGEST_LIMIT)
        found = found or faults_in(case, same_files, case, f"with --limit {limit}", limited, limit)
        found = found or faults_of_files(case, ((in_order, LARGEST_LIMIT), (limited, limit)))
        faults += found
        first += len(case.exchanges)
    return faults


def faults_of_files(case, runs):
    """Some of its files are inspected, as one of the runs left them; that of a file case is changed too."""
    faults = []
    for name in case.book:
        replayed, limit = case.chance.choice(runs)
        check = check_changed if case.kind == "file" else check_file
        if name in replayed.files and (case.kind == "file" or case.chance.random() < 0.25):
            faults += faults_in(case, check, case, name, limit, replayed.files[name])
    return faults
