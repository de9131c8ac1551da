"""What `serve` does where its folder can't be used, goes away or gets full, and where a take's file is there."""
import contextlib
import errno
import os
import shutil
import subprocess
import sys

from kit.network import CANT_GO_ON, connect, ends_by_signal, free_port, hear_all, LOCAL, reason, run, same_exchanges
from kit.network import same_file, same_settled, send, Server, serves_on, TALLY
from kit.takes import BYE_FRAME, DELAYED_STORE, notice, Take


def case_bad_folder(folder):
    missing = folder / "missing"
    no_folder = folder / "file"
    no_folder.write_bytes(b"")
    for path, number in ((missing, 2), (no_folder, 20)):
        output = run("serve", "--listen", f"{LOCAL}:{free_port()}", "--folder", str(path))
        TALLY.same(f"the folder {path.name}", output, (3, "", f"{path} can't be opened: {reason(number)}\n"))


def case_folder_goes_away(folder):
    place = folder / "place"
    place.mkdir()
    server = Server(place, "--until-stopped")
    serves_on("before the folder goes away", server, place, 0)
    shutil.rmtree(place)
    take = Take("field-6", 3_000, 9)
    same_settled("the folder is gone", send(server.port, take, "--rounds", "1"), 0, 0, 3)
    TALLY.same("the folder is gone: the server", server.end(), (3, [], CANT_GO_ON))


@contextlib.contextmanager
def small_disk(folder, size):
    """Mounts a disk of this many bytes on a folder; None if this user can't."""
    words = ["mount", "-t", "tmpfs", "-o", f"size={size}", "tmpfs", str(folder)]
    can_mount = os.geteuid() == 0 and shutil.which("mount")
    if not can_mount or subprocess.run(words, stderr=subprocess.DEVNULL).returncode:
        yield None
        return
    try:
        yield folder
    finally:
        subprocess.run(["umount", "-l", str(folder)])


def free_room(folder):
    found = os.statvfs(folder)
    return found.f_bavail * found.f_frsize


def case_full_disk(folder):
    with small_disk(folder, 1 << 20) as disk:
        if disk is None:
            print("a full disk: left out, as no disk can be mounted", file=sys.stderr)
            return
        fill_up(disk)
        read_only(disk)


def fill_up(disk):
    """The disk of a server fills up while a take is received, and later has room again."""
    filler = disk / "filler"
    filler.write_bytes(bytes(600 * 1024))
    take = Take("field-7", 650_000, 10)
    count = len(take.requests())
    stored_blocks = (free_room(disk) - 690) // len(take.blocks[0])
    first_unstored = take.FIRST_BLOCK + stored_blocks
    server = Server(disk, "--until-stopped")
    output = send(server.port, take, "--rounds", "3")
    same_settled("a full disk", output, first_unstored, first_unstored, 3)
    same_exchanges("a full disk: its exchanges", server.lines(3), ["Bye"] * 3)
    same_sizes("a full disk", disk, take, stored_blocks)
    with connect(server.port) as peer:
        peer.sendall(take.messages()[first_unstored] + BYE_FRAME)
        wanted = notice(take.name, first_unstored, DELAYED_STORE, first_unstored)
        TALLY.same("a full disk: the notice", hear_all(peer), wanted)
    same_exchanges("a full disk: one more exchange", server.lines(1), ["Bye"], 3)
    server.faults.seek(0)
    said = f"the store fails: {disk}/{take.name}.wav: {reason(errno.ENOSPC)}\n"
    TALLY.same("a full disk: why, once", server.faults.read().decode(), said)
    filler.unlink()
    same_settled("room again", send(server.port, take), count, count, 0)
    same_file("room again", disk, take)
    ends_by_signal("room again", server, said)


def same_sizes(name, folder, take, blocks):
    """The file has these blocks, and perhaps bytes of the next one past the end that its sizes give."""
    path = folder / f"{take.name}.wav"
    wanted = take.file(blocks)
    found = path.read_bytes()
    TALLY.same(f"{name}: the start of the file", found[: len(wanted)], wanted)
    status, out, faults = run("inspect", str(path))
    TALLY.same(f"{name}: inspect", (status, faults), (0, ""))
    sizes = f"data at=690 bytes={sum(map(len, take.blocks[:blocks]))} "
    TALLY.holds(f"{name}: inspect", f"\n{sizes}" in out, f"no line '{sizes}..'")


def read_only(disk):
    if subprocess.run(["mount", "-o", "remount,ro", str(disk)]).returncode:
        print("a read-only disk: left out, as the disk can't be mounted so", file=sys.stderr)
        return
    output = run("serve", "--listen", f"{LOCAL}:{free_port()}", "--folder", str(disk))
    TALLY.same("a read-only disk", output, (3, "", f"{disk} can't be opened: {reason(30)}\n"))


def case_name_taken(folder):
    """A second server over a folder refuses a take whose name is taken there."""
    take = Take("field-8", 9_000, 11)
    first = Server(folder, "--exchanges", "1")
    count = len(take.requests())
    same_settled("a name", send(first.port, take), count, count, 0)
    first.end()
    path = folder / "field-8.wav"
    before = path.read_bytes(), path.stat().st_mtime_ns
    second = Server(folder, "--exchanges", "1")
    output = send(second.port, take)
    refused = ["NameTaken", *["NotOpen"] * (count - 1)]
    lines = [f"settled {count}", "stored 0", *(f"refused {at} {why}" for at, why in enumerate(refused))]
    TALLY.same("a name that is taken", output, (1, "".join(f"{line}\n" for line in lines), ""))
    TALLY.same("a name that is taken: the server", second.end(), (0, ["exchange 0 Bye"], ""))
    TALLY.same("a name that is taken: its file", (path.read_bytes(), path.stat().st_mtime_ns), before)
