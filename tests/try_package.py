#!/usr/bin/env python3
"""Upgrades the Debian package under twenty live recorders, and removes it: on a machine that can be thrown away.

  tests/try_package.py OLD.deb NEW.deb   as root, with systemd as process 1; both are made by tools/make_deb

The service and a shard of deploy/bwingest@.service serve ten recorders each while NEW.deb is installed over OLD.deb,
and then over itself. Both have to run another process each time; each sender must end with status 0, and each take be
closed with the samples that were written. `systemd-analyze security` must rate each unit 2.0 or better. A service that
was stopped or disabled stays so; and removing and purging the package leaves takes and journals as they were. Needs
python3; any take in /var/lib/bwingest and /srv/bwingest/shard1 is in the way. Prints what differs, and last
'N passed, M failed'.
"""
import pathlib
import re
import shutil
import subprocess
import sys

sys.dont_write_bytecode = True  # nothing is left beside this script
from kit.processes import end_after
from kit.recorders import Recorder, wait_until_sent
from kit.repository import ROOT
from kit.tally import Tally

TALLY = Tally()
PROGRAM = "/usr/bin/bwingest"
SERVERS = {  # the folder and the address of each unit
    "bwingest": (pathlib.Path("/var/lib/bwingest"), "127.0.0.1:4100"),
    "bwingest@shard1": (pathlib.Path("/srv/bwingest/shard1"), "127.0.0.1:4111"),
}
ARCHIVE = "bwingest-archive@shard1"
EACH = 10  # recorders of a server
WORST = 2.0  # exposure


def output_of(*words):
    """What a command prints, whatever its status."""
    return subprocess.run(words, stdout=subprocess.PIPE, stderr=subprocess.DEVNULL, text=True).stdout.strip()


def install(package):
    done = subprocess.run(["dpkg", "-i", package], capture_output=True, text=True)
    TALLY.same(f"installing {package}", (done.returncode, done.stderr if done.returncode else ""), (0, ""))


def process_of(unit):
    return output_of("systemctl", "show", "--property=MainPID", "--value", unit)


def state_of(unit):
    return output_of("systemctl", "is-active", unit), output_of("systemctl", "is-enabled", unit)


def prepare_shard():
    """Installs the units of deploy/, as its README says."""
    folder = SERVERS["bwingest@shard1"][0]
    subprocess.run(["install", "-d", "-o", "bwingest", "-g", "bwingest", folder], check=True)
    settings = pathlib.Path("/etc/bwingest")
    settings.mkdir(exist_ok=True)
    (settings / "shard1.conf").write_text("LISTEN=127.0.0.1:4111\n")
    for unit in ("bwingest@.service", "bwingest-archive@.service"):
        shutil.copy(ROOT / "deploy" / unit, "/etc/systemd/system/")
    subprocess.run(["systemctl", "daemon-reload"], check=True)


def take_file(unit, take):
    return SERVERS[unit][0] / f"{take}.wav"


def samples_of(path):
    """The samples of a server's file, which begin where `inspect` says."""
    at, count = re.search(r"(?m)^data at=(\d+) bytes=(\d+)", output_of(PROGRAM, "inspect", path)).groups()
    return path.read_bytes()[int(at) :][: int(count)]


def upgrade(package, recorders):
    """Installs a package while recorders send; both servers have to be others afterwards."""
    for unit, sending in recorders.items():
        wait_until_sent(sending, SERVERS[unit][0], 100_000)
    before = {unit: process_of(unit) for unit in recorders}
    install(package)
    for unit, sending in recorders.items():
        wait_until_sent(sending, SERVERS[unit][0], 100_000)
        TALLY.holds(f"{unit}: the process", process_of(unit) not in ("0", before[unit]), "it is the same, or none")


def check_takes(recorders):
    for unit, sending in recorders.items():
        for it in sending:
            TALLY.same(f"{unit}: status of {it.take}", it.end(60)[0], 0)
            TALLY.same(f"{unit}: samples of {it.take}", samples_of(take_file(unit, it.take)), it.samples())
        lines = output_of(PROGRAM, "takes", "--folder", SERVERS[unit][0]).splitlines()
        TALLY.same(f"{unit}: takes", [line.split()[1] for line in lines], ["closed"] * EACH)


def check_exposure(unit):
    rated = output_of("systemd-analyze", "security", "--no-pager", unit)
    found = re.search(r"exposure level for \S+: ([0-9.]+)", rated)
    exposure = float(found[1]) if found else 10.0
    print(f"{unit}: exposure {exposure}")
    TALLY.holds(f"{unit}: exposure", exposure <= WORST, f"{exposure}, more than {WORST}")


def case_upgrade(work):
    install(OLD)
    TALLY.same("a new installation", state_of("bwingest"), ("inactive", "disabled"))
    prepare_shard()
    subprocess.run(["systemctl", "enable", "--now", *SERVERS], check=True)
    recorders = {
        unit: [Recorder(work, PROGRAM, address, f"{unit.replace('@', '-')}-{at}") for at in range(EACH)]
        for unit, (_, address) in SERVERS.items()
    }
    for package in (NEW, NEW):  # by the scripts of the old package, and by its own
        upgrade(package, recorders)
    for unit in SERVERS:
        TALLY.same(f"{unit}: after the upgrade", state_of(unit), ("active", "enabled"))
    check_takes(recorders)
    for unit in (*SERVERS, ARCHIVE):
        check_exposure(unit)


def case_stopped(_work):
    """An upgrade starts nothing that was stopped, and enables nothing that was disabled."""
    subprocess.run(["systemctl", "disable", "--now", "bwingest"], check=True)
    install(NEW)
    TALLY.same("upgraded while disabled", state_of("bwingest"), ("inactive", "disabled"))
    subprocess.run(["systemctl", "enable", "bwingest"], check=True)
    install(NEW)
    TALLY.same("upgraded while stopped", state_of("bwingest"), ("inactive", "enabled"))
    subprocess.run(["systemctl", "start", "bwingest"], check=True)


def kept():
    return {it: it.read_bytes() for folder, _ in SERVERS.values() for it in sorted(folder.iterdir())}


def case_purged(_work):
    """Removing stops the servers, and purging leaves takes and journals."""
    before = kept()
    subprocess.run(["dpkg", "--remove", "bwingest"], check=True, stdout=subprocess.DEVNULL)
    for unit in SERVERS:
        TALLY.same(f"{unit}: removed", process_of(unit), "0")
    subprocess.run(["dpkg", "--purge", "bwingest"], check=True, stdout=subprocess.DEVNULL)
    TALLY.holds("what is kept", len(before) >= 4 * EACH, f"{len(before)} files alone")
    TALLY.holds("purged", kept() == before, "takes or journals are gone, or others")
    TALLY.same("purged: links of the unit", output_of("find", "/etc/systemd/system", "-name", "bwingest.service"), "")


if __name__ == "__main__":
    if len(sys.argv) != 3:
        sys.exit(__doc__)
    OLD, NEW = sys.argv[1:]
    end_after(400)
    for case in (case_upgrade, case_stopped, case_purged):
        TALLY.try_case(case, (OSError, ValueError, AttributeError, subprocess.SubprocessError))
    sys.exit(TALLY.end())
