#!/usr/bin/env python3
"""Runs four shards and HAProxy, by the files of deploy/, with senders of files, and kills one of them under load.

  tests/test_shards.py [PROGRAM [SENDERS [--rates]]]   the program of this repository, and 40 senders, if they aren't given

Each shard is a server with journals over a folder of its own. The first has a standby over the same folder, which is
started again each half second, as the systemd unit does, until the folder's lock is free. While files are sent the
first shard is killed, so its standby goes on. Afterwards each sender has ended with status 0, each file is closed, has
the samples that were sent and is in one folder alone, that of its slot. Then slots that no name has used are given
to a fifth shard while HAProxy runs, and a name of one of them goes there; and a slot moves with a name's files.

By TLS a recorder sends under the names of its certificate, and no others; through the balancer, too, a second name ends
a connection. With --rates a file of 64 MB is sent to a shard, through the balancer, and through it by TLS, one after
another, and how fast is printed.

Needs haproxy, openssl and socat. Prints what differs, the seconds until the standby answered, the files of each shard,
and last 'N passed, M failed'.
"""
import contextlib
import shutil
import ssl
import sys
import time

sys.dont_write_bytecode = True  # nothing is left beside this script
from kit.network import connect, finish, hear_all, run_cases, TALLY, wait_until
from kit.shards import answers, Balancer, recording_of, RECORDER, samples_in, send_file, Shard, SHARDS, slot_of
from kit.shards import Standby, Tunnel
from kit.takes import ASK, bad_frame, BYE_FRAME, message, NEXT, notice

NAMED = 3  # the reason of a frame that is bad for its name


def ask(name):
    return message(name, 0, bytes([ASK]))


def next_zero(name):
    """The answer that number 0 comes next under a name."""
    return notice(name, 0, NEXT, 0)


def bad_name(place):
    return bad_frame(NAMED, place)


def send_all(work, port, count):
    """Starts a sender for each file; by name the process and the samples."""
    recordings = {f"rec{number}-take": recording_of(number) for number in range(count)}
    return {name: (send_file(work, port, name, it), it.samples) for name, it in recordings.items()}


def check_files(shards, senders):
    """Compares each file with what was sent, and prints how many are in each shard."""
    for name, (process, samples) in senders.items():
        status, _, faults = finish(process, name=f"send {name}")
        TALLY.same(f"status of {name}", (status, faults), (0, ""))
        found = [shard for shard in shards if shard.file(name).exists()]
        TALLY.same(f"folders of {name}", len(found), 1)
        if len(found) == 1:
            TALLY.same(f"samples of {name}", samples_in(found[0].file(name)), samples)
    counts = [len([*shard.folder.glob("*.wav")]) for shard in shards]
    print("files of each shard:", *counts)
    TALLY.holds("shards", all(counts[:SHARDS]), f"one got no file: {counts}")


def send_whole(work, port, name, recording, what):
    """Sends a file, which has to be stored."""
    TALLY.same(f"status {what}", finish(send_file(work, port, name, recording))[0], 0)


def check_free_slot(work, shards, balancer):
    """A slot that no name has used is given to the fifth shard; a new name of it goes there."""
    used = {slot_of(file.stem) for shard in shards for file in shard.folder.glob("*.wav")}
    fresh = next(f"new{number}" for number in range(10_000) if slot_of(f"new{number}") not in used)
    TALLY.same("answer to a slot set anew", balancer.set_slot(slot_of(fresh), "shard5"), "")
    send_whole(work, balancer.port, fresh, recording_of(0), "in a slot set anew")
    TALLY.holds("a slot set anew", shards[SHARDS].file(fresh).exists(), "the file stands elsewhere")


def check_moved_slot(work, shards, balancer, senders):
    """A slot moves from the second shard to the fifth with the files of its names, while both are stopped.

    A name of it that is sent again, whole, is stored already, and no second file is begun.
    """
    source, target = shards[1], shards[SHARDS]
    name = next(it for it in senders if source.file(it).exists())
    slot = slot_of(name)
    for shard in (source, target):
        shard.stop()
    for file in [it for it in source.folder.iterdir() if slot_of(it.stem) == slot]:
        file.rename(target.folder / file.name)
    TALLY.same("answer to a slot that moves", balancer.set_slot(slot, "shard5"), "")
    for shard in (source, target):
        shard.serve()
    wait_until(lambda: answers(balancer.port), "the balancer doesn't answer again")
    send_whole(work, balancer.port, name, recording_of(int(name[3:-5])), "in a slot that moved")
    TALLY.same("a slot that moved: the samples", samples_in(target.file(name)), senders[name][1])
    TALLY.holds("a slot that moved", not source.file(name).exists(), "a file was begun in the old shard")


def heard_by_tls(balancer, certificate, said):
    """What comes back for these bytes, sent with this certificate; nothing where the connection is refused."""
    with contextlib.suppress(ssl.SSLError, ConnectionError), balancer.connect(certificate) as peer:
        peer.sendall(said)
        return hear_all(peer)
    return b""


def check_certificates(work, shards, balancer):
    """A certificate binds a prefix of names, and a recorder without one is refused."""
    own, longer, other = f"{RECORDER}-own", f"{RECORDER}0-own", "rec2-own"
    rows = (
        ("its own name", RECORDER, ask(own) + BYE_FRAME, next_zero(own)),
        ("its common name", RECORDER, ask(RECORDER) + BYE_FRAME, next_zero(RECORDER)),
        ("a name that begins alike", RECORDER, ask(longer) + BYE_FRAME, b""),
        ("another recorder's name", RECORDER, ask(other) + BYE_FRAME, b""),
        ("another recorder's name, second", RECORDER, ask(own) + ask(other), next_zero(own) + bad_name(len(ask(own)))),
        ("no certificate", None, ask(own) + BYE_FRAME, b""),
    )
    for what, certificate, said, wanted in rows:
        TALLY.same(f"by TLS: {what}", heard_by_tls(balancer, certificate, said), wanted)
    tunnel = Tunnel(balancer, RECORDER)
    recording = recording_of(1)
    send_whole(work, tunnel.port, own, recording, "by TLS")
    found = [shard for shard in shards if shard.file(own).exists()]
    TALLY.same("by TLS: the samples", [samples_in(shard.file(own)) for shard in found], [recording.samples])


def check_second_name(balancer):
    """A second name ends a connection, though the balancer looked at the first alone."""
    for first, second in (("two-a", "two-b"), ("two-b", "two-a")):
        with connect(balancer.port) as peer:
            peer.sendall(ask(first) + ask(second))
            TALLY.same(f"{second} after {first}", hear_all(peer), next_zero(first) + bad_name(len(ask(first))))


def print_rates(work, shards, balancer):
    """Sends one file of 64 MB three ways, each under names of its own, and prints the best of three MB/s."""
    recording = recording_of(7, 16_000_000)
    tunnel = Tunnel(balancer, RECORDER)
    ways = (("to a shard", shards[SHARDS].port), ("through the balancer", balancer.port), ("by TLS", tunnel.port))
    for what, port in ways:
        seconds = []
        for turn in range(3):
            name = f"{RECORDER}-{what.replace(' ', '-')[:16].lower()}-{turn}"
            began = time.monotonic()
            send_whole(work, port, name, recording, f"of 64 MB {what}")
            seconds.append(time.monotonic() - began)
        print(f"{what}: {len(recording.samples) / 1e6 / min(seconds):.0f} MB/s")


def case_shards(work):
    shards = [Shard(work / f"shard{number}") for number in range(1, SHARDS + 2)]
    for shard in shards:
        shard.serve()
    balancer = Balancer(work, shards)
    standby = Standby(shards[0])
    standby.start()
    senders = send_all(work, balancer.port, int(*sys.argv[2:3]) or 40)
    wait_until(lambda: any(shards[0].folder.glob("*.wav")), "no file comes to the first shard")
    shards[0].process.kill()
    seconds = wait_until(lambda: answers(shards[0].standby_port), "the standby doesn't answer")
    print(f"the standby answered after {seconds:.2f} s; it was started {standby.tries} times")
    check_files(shards, senders)
    check_free_slot(work, shards, balancer)
    check_moved_slot(work, shards, balancer, senders)
    check_second_name(balancer)
    check_certificates(work, shards, balancer)
    if "--rates" in sys.argv:
        print_rates(work, shards, balancer)


if __name__ == "__main__":
    for needed in ("haproxy", "openssl", "socat"):
        if not shutil.which(needed):
            sys.exit(f"{needed} isn't installed")
    sys.exit(run_cases([case_shards], 300))
