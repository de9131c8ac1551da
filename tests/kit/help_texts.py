"""What --help of the program lists, and the tables of docs/OPERATING.md that are made of it."""
import re
import subprocess

from kit.repository import ROOT

PAGE = ROOT / "docs/OPERATING.md"
END = "<!-- end -->"
PLACE = re.compile(rf"(?ms)^(<!-- options:([a-z]+) -->\n)(.*?)^{END}$")
OPTION = re.compile(r"(?m)^ {2,6}(?:-[a-zA-Z], )?(--[a-z0-9-]+(?: \[?<[^>]+>\]?)?)  +(.+)$")


def help_of(path, *words):
    return subprocess.run([path, *words, "--help"], check=True, capture_output=True, text=True).stdout


def commands_of(path):
    """The commands that the program's help lists, but for `help` itself."""
    listed = help_of(path).partition("Commands:\n")[2].partition("\n\n")[0]
    return [it for it in re.findall(r"(?m)^  ([a-z]+) ", listed) if it != "help"]


def options_of(path, command):
    """The options of a command with their texts, but for `--help` itself."""
    listed = help_of(path, command).partition("Options:\n")[2].partition("\n\n")[0]
    return [it for it in OPTION.findall(listed) if it[0] != "--help"]


def table_of(path, command):
    """The options of a command as a table of the page."""
    rows = [f"| `{re.sub('[<>]', '', name)}` | {cell_of(text)} |" for name, text in options_of(path, command)]
    return "".join(f"{it}\n" for it in (f"| `{command}` | |", "|---|---|", *rows))


def cell_of(text):
    """A text of --help as a cell: options in it as code, a default in parentheses."""
    text = re.sub(r"\[(default: [^]]*)\]", r"(\1)", text.replace("|", "\\|"))
    return re.sub(r"(?<![\w-])(--[a-z0-9-]+)", r"`\1`", text)
