"""The calls that a sender makes for its state, which no clause covers: cases of tests/test_calls.py."""
from kit.network import finish, start_with_pipes, TALLY
from kit.uploads import long_recording, serving, settled, words_of, written
from kit.watched import same_calls
from kit.watcher import Watcher

STATE = "s.state"
OLD = "bwingest-state-1 older 127.0.0.1:4100 1 1 0 " + 64 * "0" + "\n" + 999 * "settled 16777216\n"


def sent_with_state(folder, server, path):
    """Sends a recording with a state; how the sender ended, and its calls for the state and for its folder."""
    watcher = Watcher()
    words = words_of(server.port, "a1", path, "--state", str(folder / STATE))
    found = finish(start_with_pipes(*words, observer=watcher))
    of_folder = f"open {folder} to-read", f"sync {folder.name}"
    lines = [line for line in watcher.lines if STATE in line or line in of_folder]
    return found, [line.replace(str(folder), "FOLDER") for line in lines]


def begun(folder, found):
    """The calls that begin a state: it is cut off, and it and its folder are synced before anything is sent."""
    header = (folder / STATE).read_bytes().partition(b"\n")[0] + b"\n"
    return [
        *found,
        f"open FOLDER/{STATE} to-write create cut",
        f"write {STATE} {header.hex()}",
        f"sync-data {STATE}",
        *("open FOLDER to-read", f"sync {folder.name}"),
    ]


def same_noted(name, lines):
    """Counts are written one after another, and synced at the end."""
    is_so = lines[-1:] == [f"sync-data {STATE}"] and all(
        line.startswith(f"write {STATE} {b'settled '.hex()}") or line == f"sync-data {STATE}" for line in lines
    )
    TALLY.holds(f"{name}: what is noted", is_so, f"{lines}")


def case_state(folder):
    """A state is begun, gone on with, and begun in the place of an older, longer one."""
    recording, file = long_recording(3)
    count = len(recording.requests())
    path = written(folder, file)
    with serving(folder) as server:
        found, lines = sent_with_state(folder, server, path)
        TALLY.same("a state", found, (0, settled(count), ""))
        wanted = begun(folder, [f"open FOLDER/{STATE} to-read-and-write fails 2"])
        same_calls("a state", lines[: len(wanted)], wanted)
        same_noted("a state", lines[len(wanted) :])
        kept = (folder / STATE).read_bytes()

        found, lines = sent_with_state(folder, server, path)
        TALLY.same("a state goes on", found, (0, settled(count), f"{folder / STATE}: goes on at {count - 1}\n"))
        read = [f"open FOLDER/{STATE} to-read-and-write", f"stat {STATE}"]
        wanted = [*read, f"read {STATE} {kept.hex()}", f"read {STATE} ", f"open FOLDER/{STATE} to-write append"]
        same_calls("a state goes on", lines[: len(wanted)], wanted)
        same_noted("a state goes on", lines[len(wanted) :])

        (folder / STATE).write_text(OLD)
        found, lines = sent_with_state(folder, server, path)
        TALLY.same("an older state", found, (0, settled(count), f"{folder / STATE}: another state, begins at 0\n"))
        lines = [line for line in lines if not line.startswith(f"read {STATE}")]
        wanted = begun(folder, read)
        same_calls("an older state", lines[: len(wanted)], wanted)
        same_noted("an older state", lines[len(wanted) :])
        TALLY.holds("an older state", b"16777216" not in (folder / STATE).read_bytes(), "some of it is left")


CASES = [case_state]
