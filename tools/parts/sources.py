"""Reads the sources of the crates: public items with their comments, signatures and clauses, names, and tests.

They are read line by line, as `rt fmt` lays them out: an item begins at its indentation, a clause on a line of its own.
"""
import pathlib
import re
from dataclasses import dataclass

ROOT = pathlib.Path(__file__).resolve().parent.parent.parent


# Of an implementation of these each method is a call, with the meaning that it gives to the trait's contract as
# its clauses; of one of the project's own traits only a method with clauses of its own.
STD_TRAITS = ("Default", "Display", "From", "TryFrom")
FN = re.compile(r'( *)(pub(?:\([a-z]+\))? )?(?:const |final |extern "C" )?fn ([a-z_0-9]+)')
CLAUSE = re.compile(r" *ensures\*? ?([a-z_0-9]*) ?\{")


@dataclass
class Item:
    """A public item: a `constant`, a `type`, a `trait`, the `model` that clauses mean by a type, or a `call`."""

    kind: str
    name: str
    owner: str  # the type or trait of a method, or nothing
    place: str
    doc: list
    code: list
    labels: set


@dataclass
class Test:
    """A test or a worked example, with its comment, if any."""

    module: str
    name: str
    doc: list


def edges():
    """The crates in the order of crates.txt, each with what it may use."""
    lines = [it for it in (ROOT / "crates.txt").read_text().splitlines() if it and not it.startswith("#")]
    return {name.split()[0]: below.split() for name, _, below in (line.partition(":") for line in lines)}


def crates():
    """The crates in the order of crates.txt, without those of tests."""
    return [it for it in edges() if not holds_tests(it)]


def holds_tests(crate):
    return crate.startswith("bw_tests_")


def clauses_of_all():
    """The labels of the clauses of each function, private ones too, by crate and name."""
    clauses = {}
    for path in sorted(ROOT.glob("crates/*/src/**/*.rt")):
        crate, function = path.relative_to(ROOT).parts[1], None
        for line in path.read_text().splitlines():
            if found := FN.match(line):
                function = clauses.setdefault((crate, found.group(3)), set())
            elif (found := CLAUSE.match(line)) and function is not None:
                function.add(found.group(1))
    return clauses


def names_of_all():
    """Every name of the sources, and of files and folders."""
    names = set()
    for path in [*ROOT.glob("crates/*/src/**/*.rt"), ROOT / "c/bwi.h"]:
        names.update(re.findall(r"[A-Za-z_][A-Za-z0-9_]*", path.read_text()))
    for path in [*ROOT.glob("crates/*/specs/**/*.antt"), *ROOT.glob("crates/*/proofs/**/*.antt")]:
        names.update(re.findall(r"[A-Za-z_][A-Za-z0-9_-]*", path.read_text()))
        names.add(path.stem)
    for path in [*ROOT.glob("*"), *ROOT.glob("crates/*"), *ROOT.glob("*/*")]:
        names.update((path.name, path.stem))
    return names


def root_of(crate):
    """The file that says what of a crate is public: lib.rt, or main.rt of a program."""
    return next(it for it in (ROOT / f"crates/{crate}/src/{name}.rt" for name in ("lib", "main")) if it.exists())


def about(crate):
    """What the crate says of itself."""
    return [it[3:].strip() for it in root_of(crate).read_text().splitlines() if it.startswith("//!")]


def seen_of(root):
    """The names that are seen from outside a crate, and the modules all of whose public functions are.

    Seen is `pub use module::{..}`, and all that is `pub` in lib.rt itself and in a `pub mod`."""
    text = root.read_text()
    seen = set(re.findall(r"\w+", " ".join(re.findall(r"^pub use \w+::([^;]*);", text, re.M))))
    open_modules = {root.stem, *re.findall(r"^pub mod (\w+);", text, re.M)}
    for path in root.parent.glob("*.rt"):
        if path.stem in open_modules:
            seen.update(re.findall(r"^pub (?:const|struct|enum|trait) (\w+):?", path.read_text(), re.M))
    return seen, open_modules


def passed_on(crate):
    """The names of other crates that are seen from outside this one too, by crate."""
    found = re.findall(r"^pub use (bw_\w+)::([^;]*);", root_of(crate).read_text(), re.M)
    return {other: re.findall(r"\w+", names) for other, names in found}


def items_of(crate):
    """The public items of a crate, file by file.

    Methods may be in any module: a type is known by its name alone, and no crate has a private type of a public
    one's name. What is derived (`Clone`, `Debug`, the texts of `thiserror`) is no call here: it has no line of its own.
    """
    root = root_of(crate)
    seen, open_modules = seen_of(root)
    items = []
    for path in sorted(root.parent.rglob("*.rt")):
        module = ("" if path == root else f"{path.stem}::") if path.stem in open_modules else None
        items += FileWalk(path, module, seen).items()
    return [it for it in items if it.kind != "call" or it.labels or not is_of_own_trait(it.name)]


def is_of_own_trait(call):
    found = re.match(r"<\w+ as (\w+)", call)
    return found and found.group(1) not in STD_TRAITS


def implemented(line):
    """The trait, if any, and the type of an `impl` line. A path before the one and the other's parameters are
    left out."""
    rest, depth = line[len("impl") :], 0
    for at, c in enumerate(rest):
        depth += (c == "<") - (c == ">")
        if depth == 0:
            rest = rest[at + 1 :] if c == ">" else rest
            break
    trait, _, owner = rest.strip().rpartition(" for ")
    return trait.split("::")[-1] or None, re.match(r"\w*", owner).group()


class FileWalk:
    """A walk over one file: the trait or implementation that it is in, and the comment above the next item."""

    def __init__(self, path, module, seen):
        """The module is what comes before a function that is seen there, or nothing if none is."""
        self.path, self.module, self.seen = path, module, seen
        self.lines = path.read_text().splitlines()
        self.trait = self.owner = None
        self.ghosts, self.doc = {}, []

    def items(self):
        found = []
        for at, line in enumerate(self.lines):
            if doc := re.match(r" */// ?(.*)", line):
                self.doc.append(doc.group(1))
            elif not re.match(r" *#\[", line):
                found += filter(None, [self.item_at(at, line)])
                self.doc = []
        return found

    def item_at(self, at, line):
        """The public item that the line begins, if any. The trait or implementation that it begins or ends is kept."""
        if line == "}":
            self.trait = self.owner = None
        elif found := re.match(r"pub const (\w+):", line):
            return self.type_at(at, found.group(1), "constant")
        elif found := re.match(r"pub (struct|enum|trait) (\w+)", line):
            is_trait = found.group(1) == "trait"
            self.trait = self.owner = found.group(2) if is_trait else None
            return self.type_at(at, found.group(2), "trait" if is_trait else "type")
        elif re.match(r"impl\b", line):
            self.trait, self.owner = implemented(line)
            self.ghosts = {}
            return self.type_at(at, self.owner, "model") if self.trait == "Model" else None
        elif found := re.match(r"    ghost (\w+) = ", line):
            self.ghosts[found.group(1)] = block(self.lines, at)
        elif found := FN.match(line):
            return self.call_at(at, found)
        return None

    def item(self, kind, name, owner, at, code, labels=()):
        place = f"{self.path.relative_to(ROOT)}:{at + 1}"
        return Item(kind, name, owner, place, self.doc, code, set(labels))

    def type_at(self, at, name, kind):
        if name not in self.seen:
            return None
        public = {"constant": list, "type": public_part, "trait": ghosts_of, "model": ghosts_of}[kind]
        return self.item(kind, name, name, at, public(block(self.lines, at)))

    def call_at(self, at, found):
        if not (name := self.call_of(found)):
            return None
        head = head_at(self.lines, at)
        labels = {it.group(1) for it in map(CLAUSE.match, head) if it}
        if self.trait and self.trait.split("<")[0] in STD_TRAITS:
            labels = set(self.ghosts)
            head = [line for ghost in self.ghosts.values() for line in ghost] + head
        return self.item("call", name, self.owner, at, [it.removeprefix(found.group(1)) for it in head], labels)

    def call_of(self, found):
        """The name of the call that the line of a `fn` begins, or nothing if it can't be called from outside."""
        indent, public, name = found.group(1), found.group(2) == "pub ", found.group(3)
        # A conversion into a type of std (`From<Verdict> for u8`) is known by what it converts.
        known = self.seen.intersection([self.owner, *re.findall(r"\w+", self.trait or "")[1:]])
        if not indent:
            is_open = self.module is not None or name in self.seen
            return (name if name in self.seen else self.module + name) if public and is_open else None
        if known and self.trait and self.trait != self.owner:
            return f"<{self.owner} as {self.trait}>::{name}"
        return f"{self.owner}::{name}" if known and (public or self.trait) else None


def clause_comments(call):
    """The comment above each clause of a call, or nothing where it has none, by the clause's label."""
    found, comment = {}, []
    for line in call.code:
        if line.lstrip().startswith("// "):
            comment.append(line.lstrip().removeprefix("// "))
        elif clause := CLAUSE.match(line):
            found[clause.group(1)] = " ".join(comment)
            comment = []
    return found | {it: "" for it in sorted(call.labels - found.keys())}


def block(lines, at):
    """The lines from there on to the one that closes what the first opens."""
    depth = 0
    for end in range(at, len(lines)):
        depth += sum(lines[end].count(it) for it in "({[") - sum(lines[end].count(it) for it in ")}]")
        if depth == 0 and lines[end].endswith((";", "}")):
            return lines[at : end + 1]
    return lines[at:]


def head_at(lines, at):
    """The signature and the clauses of the function that begins there."""
    has_clauses, depth = False, 0
    for end in range(at, len(lines)):
        line = lines[end].strip()
        if line in ("{", "{}"):
            return lines[at:end]
        has_clauses |= line.startswith(("requires", "ensures"))
        depth += sum(line.count(it) for it in "({[") - sum(line.count(it) for it in ")}]")
        if line.endswith(";") and depth == 0:
            return lines[at : end + 1]
        if not has_clauses and line.endswith(("{", "}")):
            return [*lines[at:end], lines[end][: lines[end].rindex(" {")]]
    return lines[at:]


def public_part(lines):
    """A type without its private fields."""
    if len(lines) == 1:
        return [re.sub(r"\((?!pub ).*\);", "(..);", lines[0])]
    if lines[0].startswith("pub enum"):
        return lines
    kept, comment = [], []
    for line in lines[1:-1]:
        is_comment = line.lstrip().startswith(("///", "#["))
        kept += [*comment, line] if line.startswith("    pub ") else []
        comment = [*comment, line] if is_comment else []
    return [lines[0], *kept, *(["    .."] if len(kept) < len(lines) - 2 else []), lines[-1]]


def ghosts_of(lines):
    """A trait or an implementation without its functions: what its contracts, or those of its type, speak of."""
    kept, comment = [], []
    for at, line in enumerate(lines):
        if re.match(r"    ghost \w+[ :]", line) and not line.startswith("    ghost use "):
            kept += [*comment, *block(lines, at)]
        comment = [*comment, line] if line.lstrip().startswith("///") else []
    return [lines[0].removesuffix("{}") if lines[0].endswith("{}") else lines[0], *kept, "}"]


def tests_of(crate):
    """The tests of a crate, module by module."""
    for path in sorted((ROOT / f"crates/{crate}/src").rglob("*.rt")):
        doc, is_test = [], False
        for line in path.read_text().splitlines():
            if found := re.match(r" */// ?(.*)", line):
                doc.append(found.group(1))
            elif re.match(r" *#\[", line):
                is_test |= line.strip() == "#[test]"
            else:
                if is_test and (found := FN.match(line)):
                    yield Test(path.stem, found.group(3), doc)
                doc, is_test = [], False


def worked_examples_of(crate):
    """The worked examples of the definitions, which are proved by computation, file by file."""
    for path in sorted((ROOT / f"crates/{crate}/specs").glob("ExamplesOf*.antt")):
        doc = []
        for line in path.read_text().splitlines():
            if line.startswith("-- "):
                doc.append(line.removeprefix("-- "))
            else:
                if found := re.match(r"abbrev pub (\w+Example) ", line):
                    yield Test(path.stem, found.group(1), doc)
                doc = []
