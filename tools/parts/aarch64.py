"""Links a program for aarch64, for which the toolchain has neither the C library nor the start of a program."""
import pathlib
import subprocess
import sys

TARGET = "aarch64-unknown-linux-gnu"
SOURCE = "c/os/aarch64.c"
LOADER = "/lib/ld-linux-aarch64.so.1"
COMPILER = ("--target=" + TARGET, "-std=c11", "-O2", "-fPIE", "-ffreestanding", "-Wall", "-Wextra", "-Werror")
LINKER = ("-m", "aarch64linux")


def names_in(tools, kinds, *words):
    """The names of these kinds, as nm gives them, in files."""
    words = ["llvm-nm", "-P", *map(str, words)]
    how = {"executable": f"{tools}/bin/clang", "capture_output": True, "text": True, "check": True}
    lines = [line.split() for line in subprocess.run(words, **how).stdout.splitlines()]
    return {words[0].partition("@")[0] for words in lines if len(words) > 1 and words[1] in kinds}


def names_needed(tools, *files):
    """The names that object files need of the C library. Those that the toolchain's own, for x86-64, lacks end it."""
    needed = names_in(tools, "U", *files) - names_in(tools, "TtDdBbRrVW", *files)
    if lacking := needed - names_in(tools, "TWiDBRV", "-D", f"{tools}/lib/libc.so.6"):
        sys.exit(f"{SOURCE} lacks {', '.join(sorted(lacking))}")
    return sorted(needed)


def link(tools, root, made, program):
    """Links the object file of a program with what is written here in C. All else it takes of the system's libc.so.6,
    for which a library with the same names stands in; the status."""
    folder = pathlib.Path(made).parent
    start, names, library = folder / "start.o", folder / "names.s", folder / "libc.so.6"

    def runs(tool, *words):
        return not subprocess.run([f"{tools}/bin/{tool}", *words], cwd=root).returncode

    if not runs("clang", *COMPILER, "-c", SOURCE, "-o", start):
        return 1
    lines = [f".globl {name}\n.type {name}, %function\n{name}: ret\n" for name in names_needed(tools, made, start)]
    names.write_text("".join(lines))
    linked = ["-pie", "--dynamic-linker", LOADER, "-z", "now", "-z", "relro", "--gc-sections", "-o", program]
    return int(not (
        runs("clang", COMPILER[0], "-c", names, "-o", folder / "names.o")
        and runs("ld.lld", *LINKER, "-shared", "-soname", "libc.so.6", "-o", library, folder / "names.o")
        and runs("ld.lld", *LINKER, *linked, made, start, library)
    ))
