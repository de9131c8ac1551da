"""What a server logs on standard error: a line for each event, with its time."""
import datetime
import json
import re

from kit.network import TALLY

TIMED = re.compile(r"(\d{4}-\d\d-\d\dT\d\d:\d\d:\d\d\.\d{3}Z) (.*)")
LONGEST_AGO = datetime.timedelta(minutes=10)


def untimed(name, faults):
    """The lines without their times, each of which is in UTC, not long ago, and not before the one above it."""
    found = [TIMED.fullmatch(line) for line in faults.splitlines()]
    TALLY.holds(f"{name}: each line has a time", all(found), faults)
    times = [datetime.datetime.fromisoformat(line[1].replace("Z", "+00:00")) for line in found if line]
    now = datetime.datetime.now(datetime.timezone.utc)
    in_order = times == sorted(times) and all(now - LONGEST_AGO < time <= now for time in times)
    TALLY.holds(f"{name}: the times", in_order, faults)
    return [line[2] for line in found if line]


def objects(name, faults):
    """The lines as objects of JSON, without their times, which are like those of `untimed`."""
    found = [json.loads(line) for line in faults.splitlines()]
    TALLY.holds(f"{name}: one object a line, its keys in order", [json.dumps(it, separators=(",", ":"), ensure_ascii=False)
                                                                   for it in found] == faults.splitlines(), faults)
    lines = [f"{it.pop('time', '')} {it['message']}" for it in found]
    untimed(name, "\n".join(lines))
    return found


def ends(name, faults):
    """Those of connections that are over, without their times."""
    return [line for line in untimed(name, faults) if " names" in line]
