#!/usr/bin/env python3
"""Compiles the clients of c/ with the C library, and sends takes with them to the built program.

tests/conformance tries c/send.c. Over a relay that cuts connections within frames a client is killed and started again:
the file has to be the one that `replay` makes. What no clause says of the library is compared too: its names with those
of c/bwi.h, what it needs of others, how long it is, that structs are laid out alike, and that random calls touch no byte
that they aren't given.

The program is the first argument, or the one of this repository; the archive of the library the second, or the one of
release/c for this kind of processor. One for aarch64 is tried on x86-64 too, with a cross compiler and qemu-user.
Prints what differs, and last 'N passed, M failed'. It says what isn't tried where there is no compiler or no emulator.
"""
import os
import pathlib
import platform
import random
import re
import shutil
import subprocess
import sys
import time

sys.dont_write_bytecode = True  # nothing is left beside this script
from kit.network import end_all, ends_by_signal, LOCAL, Relay, run, run_cases, Server, STARTED, TALLY
from kit.repository import ROOT
from kit.takes import LARGEST_LIMIT, little, message

LONGEST_RUN = 240  # seconds, for all of it
CALLS = 20_000  # random ones
LARGEST_TEXT = 16_384
RATE, CHANNELS, BITS, ALIGN = 48_000, 2, 24, 6
ALLOWED = {"memcpy", "memmove", "memset"}  # which a library without a heap may need of others
HERE = platform.machine().replace("_", "-")
MACHINES = {62: "x86-64", 183: "aarch64"}  # by the number in an ELF file
COMPILERS = {HERE: ("cc", "gcc", "clang"), "aarch64": ("aarch64-linux-gnu-gcc",)}
SHARED = "libbwi.so.1"


def library():
    """The archive to try, or None."""
    given = [word for word in sys.argv[1:] if not word.startswith("--")][1:]
    found = pathlib.Path(*given[:1] or [ROOT / "release/c" / HERE / "libbwi.a"])
    return found.resolve() if found.exists() else None


def machine():
    """The kind of processor that the library is for."""
    content = library().read_bytes()
    place = content.index(b"\x7fELF") + 18
    return MACHINES[int.from_bytes(content[place : place + 2], "little")]


def compiler():
    """A C compiler for it, or None."""
    names = COMPILERS[HERE] if machine() == HERE else COMPILERS[machine()]
    return next(filter(None, map(shutil.which, names)), None)


def runner():
    """The words before a program of the library's kind of processor, or None if it can't run here."""
    if machine() == HERE:
        return []
    if emulator := shutil.which(f"qemu-{machine()}"):
        loader = pathlib.Path(output_of(compiler(), f"-print-file-name=ld-linux-{machine()}.so.1").strip())
        return [emulator, "-L", str(loader.resolve().parent.parent)]
    return None


def output_of(*words, **how):
    return subprocess.run(words, stdout=subprocess.PIPE, text=True, check=True, **how).stdout


def compiled(folder, source, *flags, linked=None):
    """The words that run the program of a C source and the library."""
    path = folder / source.partition(".")[0]
    words = ["-std=c11", "-Wall", "-Wextra", "-Werror", "-O1", *flags, "-o", str(path)]
    subprocess.run([compiler(), *words, str(ROOT / "c" / source), *(linked or [str(library())])], check=True)
    return [*runner(), str(path)]


def samples_of(length, seed):
    return random.Random(seed).randbytes(length - length % ALIGN)


def messages(name, samples):
    """What a client has to send of these samples."""
    step = 32_768 // ALIGN * ALIGN
    opening = little(RATE, 4) + little(CHANNELS, 2) + little(BITS, 2) + little(0, 2)
    blocks = [samples[at : at + step] for at in range(0, len(samples), step)]
    requests = [bytes([1]) + opening, *(bytes([2]) + it for it in blocks), bytes([5]) + little(len(samples) // ALIGN, 8)]
    return [message(name, number, request) for number, request in enumerate(requests)]


def replayed(name, samples):
    """The file of these samples, as `replay` makes it of one exchange."""
    line = b"".join(messages(name, samples)).hex().encode()
    status, out, faults = run("replay", "--limit", str(LARGEST_LIMIT), given=line)
    TALLY.same(f"{name}: replay", (status, faults), (0, ""))
    return bytes.fromhex(out.rpartition(f"file {name} ")[2].partition("\n")[2])


def client(words, port, name, path):
    process = subprocess.Popen([*words, LOCAL, str(port), name, *map(str, (RATE, CHANNELS, BITS)), path])
    STARTED.append(process)
    return process


def send_with_kills(case, words, folder, seed):
    """A client that is killed twice sends a take over a relay that cuts within frames."""
    name, chance = f"take-{seed}", random.Random(seed)
    samples = samples_of(800_000, seed)
    path = folder / "samples"
    path.write_bytes(samples)
    store = folder / name
    store.mkdir()
    server = Server(store, "--until-stopped")
    relay = Relay(server.port, seed)
    for _ in range(2):
        process = client(words, relay.port, name, path)
        time.sleep(chance.uniform(0.2, 1))
        process.kill()
        process.wait()
    status = client(words, relay.port, name, path).wait(LONGEST_RUN)
    relay.stop()
    TALLY.same(f"{case} {seed}: the status", status, 0)
    TALLY.holds(f"{case} {seed}: the relay", relay.connections > 1, "cut nothing")
    ends_by_signal(f"{case} {seed}", server)
    TALLY.same(f"{case} {seed}: the file", (store / f"{name}.wav").read_bytes(), replayed(name, samples))


def case_send_c(folder):
    """c/send.c sends takes, killed and resumed, three times."""
    words = compiled(folder, "send.c")
    for seed in range(3):
        send_with_kills("send.c", words, folder, seed)


def case_shared(folder):
    """It does the same with the shared library beside the archive."""
    shared = library().parent / SHARED
    if not shared.exists():
        return
    (folder / SHARED).symlink_to(shared)
    (folder / "libbwi.so").symlink_to(shared)
    linked = [f"-L{folder}", "-lbwi", f"-Wl,-rpath,{folder}"]
    send_with_kills("send.c, shared", compiled(folder, "send.c", linked=linked), folder, 5)
    TALLY.same("the shared library's names", names_of(shared, "-D")[0], names_of(library())[0])


def case_pkg_config(folder):
    """pkg-config finds the header and the archive in release/c, wherever that is."""
    if not shutil.which("pkg-config") or not (library().parent / "bwi.pc").exists():
        return
    moved = folder / "moved"
    shutil.copytree(library().parent.parent, moved)
    words = ["pkg-config", "--cflags", "--libs", "bwi"]
    found = output_of(*words, env={**os.environ, "PKG_CONFIG_PATH": str(moved / library().parent.name)})
    source = folder / "send.c"  # not beside the header
    source.write_bytes((ROOT / "c/send.c").read_bytes())
    subprocess.run([compiler(), str(source), "-o", str(folder / "send"), *found.split()], check=True)
    done = subprocess.run([*runner(), str(folder / "send")], capture_output=True, check=False)
    TALLY.same("a client that pkg-config linked", done.returncode, 2)


def case_send_py(folder):
    """c/send.py does the same, by a shared library."""
    if machine() != HERE:
        return
    shared = library().parent / SHARED
    if not shared.exists():
        shared = folder / SHARED
        whole = ["-Wl,--whole-archive", str(library()), "-Wl,--no-whole-archive"]
        subprocess.run([compiler(), "-shared", "-o", str(shared), *whole], check=True)
    send_with_kills("send.py", [sys.executable, "-B", ROOT / "c/send.py", shared], folder, 7)


def case_conformance(folder):
    """tests/conformance finds nothing wrong with c/send.c."""
    sender = " ".join([*compiled(folder, "send.c"), "{host} {port} {name} 48000 1 24 {raw}"])
    words = [sys.executable, "-B", ROOT / "tests/conformance", "--sender", sender]
    done = subprocess.run(words, capture_output=True, text=True, check=False)
    faults = [line for line in done.stdout.splitlines() if not line.startswith("passed ")]
    TALLY.holds("the conformance of send.c", not done.returncode, "\n".join(faults) + done.stderr)


def case_refusals(folder):
    """A client ends with status 1 where a request is refused: another take has the name."""
    path = folder / "samples"
    path.write_bytes(samples_of(100_000, 1))
    words = compiled(folder, "send.c")
    store = folder / "store"
    store.mkdir()
    (store / "held.wav").write_bytes(b"another file")
    server = Server(store, "--until-stopped")
    TALLY.same("a taken name", client(words, server.port, "held", path).wait(LONGEST_RUN), 1)
    ends_by_signal("a taken name", server)
    TALLY.same("a taken name: the file", (store / "held.wav").read_bytes(), b"another file")


def names_of(path, *options):
    """The names that an archive or a shared library exports, and those that it needs of others."""
    lines = [line.split() for line in output_of("nm", *options, str(path)).splitlines()]
    symbols = {(words[-2], words[-1]) for words in lines if len(words) >= 2}
    defined = {it for kind, it in symbols if kind not in "Uw"}
    exported = {it for kind, it in symbols if kind in "TDBCRVW"}
    return sorted(exported), sorted({it for kind, it in symbols if kind == "U"} - defined)


def case_names(_):
    """The header and the library have the same names; the library needs nothing else, and isn't long."""
    header = set(re.findall(r"^(?:bool|size_t)\s+(bwi_\w+)\(", (ROOT / "c/bwi.h").read_text(), re.M))
    exported, needed = names_of(library())
    TALLY.same("the library's names", exported, sorted(header))
    TALLY.same("what it needs of others", sorted({*needed} - ALLOWED), [])
    sizes = [line.split() for line in output_of("size", str(library())).splitlines()[1:]]
    text = sum(int(words[0]) for words in sizes)
    TALLY.holds("the library's text", 0 < text <= LARGEST_TEXT, f"has {text} bytes")
    TALLY.same("its data", sum(int(words[1]) + int(words[2]) for words in sizes), 0)
    version = re.search(r"(?m)^Version: (.+)$", (ROOT / "c/bwi.pc").read_text())[1]
    TALLY.same("the version that pkg-config is given", f"bwingest {version}", run("--version")[1].partition("\n")[0])


def case_random_calls(folder):
    """Random calls and replies do what the account beside them says, and touch nothing else."""
    checked = ["-fsanitize=address,undefined"] if machine() == HERE else []  # no emulator runs it
    words = compiled(folder, "random_calls.c", "-g", *checked)
    for seed in range(2):
        done = subprocess.run([*words, str(CALLS), str(seed)], capture_output=True, text=True, check=False)
        found = re.fullmatch(rf"{CALLS} calls, (\d+) heads, (\d+) replies, (\d+) counted\n", done.stdout)
        TALLY.same(f"random calls {seed}", (done.returncode, done.stderr), (0, ""))
        TALLY.holds(f"random calls {seed}", found and all(int(it) > 100 for it in found.groups()), done.stdout)


def main():
    if not library():
        print("no library, neither in release/c nor given: nothing is tried")
        return TALLY.end()
    cases = [case_names] if shutil.which("nm") else []
    if compiler() and runner() is not None:
        cases += [case_random_calls, case_refusals, case_conformance, case_pkg_config]
        cases += [case_send_c, case_shared, case_send_py]
    else:
        print(f"no C compiler for {machine()}, or no emulator: only names are compared", flush=True)
    try:
        return run_cases(cases, LONGEST_RUN)
    finally:
        end_all()


if __name__ == "__main__":
    sys.exit(main())
