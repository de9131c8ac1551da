#!/usr/bin/env python3
"""Compares what --help lists with the manual page and the completions of bash and zsh in packaging/, and with the
tables of options in docs/OPERATING.md.

The program is the first argument, or the one of this repository. Page and completions have to name the same commands,
and for each command the same options; the tables are to be what tools/options prints. Prints what differs, and last
'N passed, M failed'.
"""
import re
import sys

sys.dont_write_bytecode = True  # nothing is left beside this script
from kit.help_texts import commands_of, options_of, PAGE, PLACE, table_of
from kit.repository import ROOT, program
from kit.tally import Tally

OPTION = re.compile(r"--[a-z][a-z0-9-]*")
PACKAGING = ROOT / "packaging"


def options_of_page():
    """The options of each command in the manual page: what its section's entries begin with."""
    found = {}
    for section in (PACKAGING / "bwingest.1").read_text().split("\n.SS ")[1:]:
        name, _, text = section.partition("\n")
        text = text.partition("\n.SH ")[0].replace("\\-", "-")
        found[name] = {OPTION.search(it)[0] for it in re.findall(r"(?m)^\.TP\n(\.B[IR]? .*)$", text)}
    return found


def options_of_bash():
    text = (PACKAGING / "bwingest.bash").read_text()
    found = re.findall(r"(?m)^    ([a-z]+)\) options='(.*)' ;;$", text)
    return {name: set(OPTION.findall(words)) - {"--help"} for name, words in found}


def options_of_zsh():
    text = (PACKAGING / "_bwingest").read_text().partition("case $command in\n")[2]
    found = re.findall(r"(?ms)^    ([a-z]+)\)(.*?);;$", text)
    return {name: set(re.findall(r"'\*?(--[a-z0-9-]+)(?:=-)?\[", words)) - {"--help"} for name, words in found}


def main(words):
    path, tally = program(words), Tally()
    wanted = {name: {text.split()[0] for text, _ in options_of(path, name)} for name in commands_of(path)}
    tally.holds("help", len(wanted) > 5, f"lists only {sorted(wanted)}")
    for where, found in (("manual page", options_of_page()), ("bash", options_of_bash()), ("zsh", options_of_zsh())):
        tally.same(f"commands of {where}", sorted(found), sorted(wanted))
        for name, options in wanted.items():
            tally.same(f"{name} in {where}", sorted(found.get(name, ())), sorted(options))
    tables = {name: table for _, name, table in PLACE.findall(PAGE.read_text())}
    tally.same("tables of options", sorted(tables), sorted(name for name, options in wanted.items() if options))
    for name in sorted(tables.keys() & wanted):
        stale = "isn't what --help lists: tools/options --write"
        tally.holds(f"the table of {name}", tables[name] == table_of(path, name), stale)
    return tally.end()


if __name__ == "__main__":
    sys.exit(main(sys.argv[1:]))
