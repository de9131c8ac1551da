#!/usr/bin/env python3
"""Makes the Debian packages of tools/make_deb twice, in different circumstances: both times they have the same bytes.

What differs is the folder, the zone, the locale, the umask, and how many processors and threads there are. SHA256SUMS
must be what sha256sum accepts, and what the packages install must be owned by root and, but for links, have no mode but
755 and 644. Needs dpkg-deb and git. Takes no argument: the packages have what is in release/. Prints what differs, and
last 'N passed, M failed'.
"""
import os
import pathlib
import subprocess
import sys

sys.dont_write_bytecode = True  # nothing is left beside this script
from kit.processes import end_after
from kit.repository import ROOT
from kit.tally import Tally

TALLY = Tally()
CIRCUMSTANCES = (
    {"umask": 0o022, "processors": None, "TZ": "UTC", "LC_ALL": "C", "DPKG_DEB_THREADS_MAX": "4"},
    {"umask": 0o077, "processors": 1, "TZ": "Asia/Tokyo", "LC_ALL": "C.UTF-8", "DPKG_DEB_THREADS_MAX": "1"},
)
MODES = {"drwxr-xr-x", "-rwxr-xr-x", "-rw-r--r--", "lrwxrwxrwx"}
PACKAGES = ["bwingest_amd64", "bwingest_arm64", "bwingest-dev_amd64", "bwingest-dev_arm64"]


def made_in(folder, umask, processors, **more):
    """The packages that are made in a new folder, in these circumstances."""

    def prepare():
        os.umask(umask)
        os.sched_setaffinity(0, [*os.sched_getaffinity(0)][:processors])

    folder.mkdir()
    words = [sys.executable, ROOT / "tools/make_deb", folder]
    ran = subprocess.run(words, env={**os.environ, **more}, preexec_fn=prepare, cwd="/", capture_output=True, text=True)
    packages = [pathlib.Path(line) for line in ran.stdout.splitlines()]
    made = ["_".join(it.stem.split("_")[::2]) for it in packages if it.parent == folder]
    TALLY.same(f"{folder.name}: what is printed", (ran.returncode, made, ran.stderr), (0, PACKAGES, ""))
    return packages


def case_made_twice(folder):
    first, second = (made_in(folder / f"made-{at}", **it) for at, it in enumerate(CIRCUMSTANCES))
    for package, again in zip(first, second):
        TALLY.same(package.name, again.read_bytes(), package.read_bytes())
        listed = subprocess.run(["dpkg-deb", "--contents", package], capture_output=True, text=True).stdout.splitlines()
        for line in listed:
            mode, owner, *_ = line.split()
            TALLY.holds(line.split()[-1], mode in MODES and owner == "root/root", f"{mode} of {owner}")
    words = ["sha256sum", "--check", "--quiet", "SHA256SUMS"]
    accepted = subprocess.run(words, cwd=folder / "made-0", capture_output=True)
    TALLY.same("SHA256SUMS", (accepted.returncode, accepted.stdout), (0, b""))


if __name__ == "__main__":
    end_after(100)
    TALLY.try_case(case_made_twice, (OSError, ValueError))
    sys.exit(TALLY.end())
