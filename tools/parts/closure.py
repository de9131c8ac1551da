"""Reads the definitions in specs/, and finds those that a reader of some of them must open: the closure of the names
in their bodies, each resolved by the `use` lines of its own file.

A type's constructors and a record's fields count with it. What std and the kit's crates define, and the ghosts of the
project's own traits and structs, isn't opened.
"""
import collections
import pathlib
import re

ROOT = pathlib.Path(__file__).resolve().parent.parent.parent


USE = re.compile(r"(?:pub )?use ([\w.+]+)\.\{(.*)\}")
HEAD = re.compile(r"(?:  )?(?:pub )?(?:record|data) (\S+)|(?:  )?(?:unfoldable|abbrev) (?:pub )?(\S+) :")
CONSTRUCTOR = re.compile(r"\s+(?:pub )?(\S+) :")
WORD = re.compile(r"[^\s(){}\[\],;.:→×⊎≡λ∷|↦]+")


def statements(text):
    """The lines of a file without its comments; a `use` that is spread over lines is one."""
    lines = (line.split("--")[0].rstrip() for line in text.splitlines())
    for line in lines:
        while re.match(r"(pub )?use .*\{[^}]*$", line):
            line += next(lines)
        if line.strip():
            yield line


class Module:
    """A file of definitions: what it imports, and the lines of each definition."""

    def __init__(self, path):
        self.crate, self.name = path.relative_to(ROOT).parts[1], path.stem
        self.imports, self.lines, self.type_of = {}, {}, {}
        inside, is_data = None, False
        for line in statements(path.read_text()):
            if found := USE.match(line):
                self.take_imports(*found.groups())
            elif line.startswith("module"):
                inside = None
            elif found := HEAD.match(line):
                inside, is_data = found[1] or found[2], " data " in f" {line}"
                self.lines[inside] = [line]
            elif inside:
                self.lines[inside].append(line)
                if is_data and (found := CONSTRUCTOR.match(line)):
                    self.type_of[found[1]] = inside

    def take_imports(self, module, names):
        for part in filter(None, (it.strip() for it in names.split(","))):
            name, _, other = part.partition(" as ")
            self.imports[other or name] = (module, name)

    def own(self, word):
        """The definition of this module that a word names, if it names one."""
        return word if word in self.lines else self.type_of.get(word)


def modules():
    """Each module of specs/, by crate and name."""
    paths = (it for it in ROOT.glob("crates/*/specs/**/*.antt") if it.stem != "Lib")
    return {(it.crate, it.name): it for it in map(Module, paths)}


def defined(known, module, name):
    """The module and name of what a name means in a module that is given by its whole path, if it is ours."""
    parts = module.split(".")
    there = known.get((parts[1], parts[-1])) if len(parts) > 2 and "declared" not in parts else None
    while there and not there.own(name) and name in there.imports:
        return defined(known, *there.imports[name])
    return (there, there.own(name)) if there and there.own(name) else None


def under(known, first):
    """All definitions that have to be opened for these: each once, by its module and name."""
    waiting, seen = collections.deque(first), {}
    while waiting:
        module, name = waiting.popleft()
        if (module.crate, module.name, name) in seen:
            continue
        seen[module.crate, module.name, name] = len(module.lines[name])
        for word in sorted(set(WORD.findall("\n".join(module.lines[name]))) - {name}):
            if module.own(word):
                waiting.append((module, module.own(word)))
            elif found := word in module.imports and defined(known, *module.imports[word]):
                waiting.append(found)
    return seen


def named(known, word):
    """What a word names: all definitions of a module, or one definition. Both may be given with their crate.

    LookupError if there is none, or if several crates have one."""
    crate, _, rest = word.rpartition("/")
    found = []
    for module in (it for it in known.values() if crate in ("", it.crate)):
        if rest == module.name:
            found += [(module, name) for name in module.lines]
        elif rest in module.lines:
            found.append((module, rest))
    if not found:
        raise LookupError(f"no definition: {word}")
    if others := sorted({it.crate for it, _ in found})[1:]:
        raise LookupError(f"{word} is in several crates, also in {', '.join(others)}: give it as CRATE/NAME")
    return found


def counted(words):
    """How many definitions those use that these words name: how many there are, their lines and files, then
    those of each file."""
    known = modules()
    found = under(known, [it for word in words for it in named(known, word)])
    by_file = collections.defaultdict(dict)
    for (crate, module, name), lines in found.items():
        by_file[f"{crate}/{module}"][name] = lines
    yield f"definitions {len(found)} lines {sum(found.values())} files {len(by_file)}"
    for file, names in sorted(by_file.items()):
        yield f"{file} {len(names)} lines {sum(names.values())}: {' '.join(sorted(names))}"
