"""This repository: where it is, and the program that its scripts try."""
import pathlib
import subprocess

ROOT = pathlib.Path(__file__).resolve().parent.parent.parent


def program(words):
    """The path of the program to try: the first of a script's words that is no option, or the one of this repository,
    which is built where need be."""
    if given := [word for word in words if not word.startswith("--")]:
        return str(pathlib.Path(given[0]).resolve())
    return subprocess.run([ROOT / "tools/program"], stdout=subprocess.PIPE, text=True, check=True).stdout.strip()
