"""Reads wrong bodies, and the functions that they change; divides them into batches, and makes their texts.

The sources are read line by line, as `rt fmt` lays them out.
"""
import pathlib
import re
from dataclasses import dataclass, replace

from parts.answers import at_goals_of

ROOT = pathlib.Path(__file__).resolve().parent.parent.parent


PUB = r"(?:pub(?:\([a-z]+\))? )?"
FUNCTION = re.compile(rf' *{PUB}(?:const |unsafe |final |extern "C" )*fn (\w+)')
OWNER = re.compile(r" *(?:unsafe )?impl\b| *" + PUB + r"trait\b")
ITEM = re.compile(rf"(?m)^ *{PUB}(?:const|static|enum|struct) (\w+)")
MOST = 48  # bodies of a batch, so that their check stays small
UNNAMED = "()"  # a type without a name, as a tuple: what a check names its functions by isn't known


@dataclass(frozen=True)
class Body:
    """A wrong body: its file, what it changes, as (file, old, new), and the functions that must refuse it.

    changed are the functions whose text it changes, items the constants and enums. Where it is in a copy of its
    function, copy_of is the function, and the copy is what it changes; clauses are those that the copy has, or none
    where it has all; goals are those at one of which it has to be refused, with no tactic tried at others, or none
    where it is tried as its function is; is_limited says that no answers are written for them."""

    path: pathlib.Path
    changes: tuple
    refused: frozenset
    changed: frozenset
    items: frozenset
    clauses: frozenset
    goals: frozenset = frozenset()
    is_limited: bool = False
    copy_of: str = ""

    @property
    def functions(self):
        return self.changed | self.refused

    @property
    def at_all_goals(self):
        """The body, tried as its function is."""
        return replace(self, goals=frozenset(), is_limited=False)

    def in_copy(self, end):
        """The body in a copy of its function, whose name has this end."""
        (function,) = self.changed
        copy = frozenset([f"{function}_{end}"])
        return replace(self, refused=copy, changed=copy, copy_of=function)

    @property
    def may_name_goals(self):
        """Whether it changes one function alone, and that has to refuse it."""
        return not self.items and self.refused == self.changed and len(self.changed) == 1

    @property
    def crate(self):
        return self.path.parent.parent.name

    def __str__(self):
        return f"{self.crate}/{self.path.stem}"


def module_of(file):
    parts = pathlib.PurePath(file).with_suffix("").parts[1:]
    return "::".join(it for it in parts if it not in ("lib", "main", "mod"))


def owner_line(lines, number):
    """The head of an `impl` or a trait at a line, in one line where `rt fmt` breaks it before `for`; nothing elsewhere."""
    line = lines[number]
    if not OWNER.match(line) or line.endswith(("}", ";")):
        return None
    goes_on = number + 1 < len(lines) and lines[number + 1].lstrip().startswith("for ")
    return f"{line} {lines[number + 1].lstrip()}" if goes_on else line


def owner_of(line, module, homes):
    """What comes before the names of the functions of an `impl` or a trait: the module (without a trait that of the
    type), and in one word the type, what it is given (`Ref` for a reference) but for the names that the `impl` itself
    declares, the trait and what that is given. For a type's own functions all that it is given is named, where any of
    it is no such name, or where it is fewer than the type has parameters, as some have a default."""
    head = re.match(r".*?\b(?:impl|trait)\b(?:<((?:[^<>]|<(?:[^<>]|<[^<>]*>)*>)*)>)?", line)
    trait, _, owner = line[head.end() :].strip().rpartition(" for ")
    words = [re.match(r"\w*", re.sub(r"^(\w+::)*", "", it.strip()))[0] for it in (owner, trait)]
    declared = set(re.findall(r"(?:^|,) *(\w+)", head[1] or ""))
    given = [it.replace("&", "Ref") for it in re.findall(r"&|\w+", re.sub(r"'\w+", "", owner.partition("<")[2]))]
    others = [it for it in given if it not in declared]
    if not trait:
        home, count = homes.get(words[0], (module, 0))
        arguments = "".join(f"+{it}" for it in given) if others or len(given) < count else ""
        return home, words[0] + arguments
    of_trait = [it for it in re.findall(r"<(\w+)", trait) if it not in declared]
    words = [words[0] or UNNAMED, *others, words[1], *of_trait]
    return module, "".join(it[0].upper() + it[1:] for it in words if it)


def last_of(lines, first):
    """The last line of the function that begins at a line: its closing brace, or else the end of its contract."""
    indent = len(lines[first]) - len(lines[first].lstrip())
    for number in range(first + 1, len(lines)) if not lines[first].endswith("}") else ():
        text = lines[number].lstrip()
        if text and len(lines[number]) - len(text) <= indent and not text.startswith(("{", ")", ">", "where")):
            return number if text.startswith("}") and len(lines[number]) - len(text) == indent else number - 1
    return first


def functions_of(text, module, homes):
    """The functions of a file: path, first line, with what is above it, and last line, from 0 on."""
    lines, owner, closes = text.splitlines(), (module, ""), "}"
    for number, line in enumerate(lines):
        if head := owner_line(lines, number):
            owner, closes = owner_of(head, module, homes), " " * (len(line) - len(line.lstrip())) + "}"
        elif line == closes:
            owner = module, ""
        elif found := FUNCTION.match(line):
            first = number
            while first and lines[first - 1].strip() and not lines[first - 1].endswith(("{", "}", ";")):
                first -= 1
            yield "::".join(filter(None, [*owner, found[1]])), first, last_of(lines, number)


def without_body(lines):
    """The lines of a function with a body that never ends; as they are if that is `const`, or is in a line."""
    at = next(number for number, line in enumerate(lines) if FUNCTION.match(line))
    indent = lines[at][: len(lines[at]) - len(lines[at].lstrip())]
    if "const fn" in lines[at] or lines[-1] != indent + "}":
        return lines
    opens = next(number for number in range(at, len(lines)) if re.match(rf"{indent}(\S.*)?\{{$", lines[number]))
    return [*lines[: opens + 1], f"{indent}    loop {{}}", lines[-1]]


def only_clauses(lines, labels):
    """The lines of a function without those of its clauses that these labels don't name. A clause that holds of every
    body is beside them, since the only clause of a function has no name in its goals."""
    at = next(number for number, line in enumerate(lines) if FUNCTION.match(line))
    indent = lines[at][: len(lines[at]) - len(lines[at].lstrip())]
    opens = next((number for number in range(at, len(lines)) if lines[number] == indent + "{"), at)
    head, is_kept = [], True
    for line in lines[at:opens]:
        if not line.startswith(indent + "     "):  # the first line of a clause, or of the signature
            found = re.match(r" *ensures (\w+) \{", line)
            is_kept = not found or found[1] in labels
        head += [line] if is_kept else []
    if len(head) == opens - at:
        return lines
    return [*lines[:at], *head, f"{indent}    ensures others_left_out {{ Unit {{0}} }}", *lines[opens:]]


def without_tactics(lines):
    """The lines of a function at whose goals no tactic is tried: what proves them is written."""
    at = next(number for number, line in enumerate(lines) if FUNCTION.match(line))
    indent = lines[at][: len(lines[at]) - len(lines[at].lstrip())]
    above, is_tactic = [], False
    for line in lines[:at]:
        is_tactic |= line.lstrip().startswith("#[tactic(")
        above += [] if is_tactic else [line]
        is_tactic &= not line.endswith(")]")
    return [*above, f"{indent}#[tactic(none)]", *lines[at:]]


def name_of(path):
    return path.split("::")[-1]


def function_of(path):
    """The function itself, or the one that a closure is in."""
    return re.sub(r"(^|::)fn::(\w+).*", r"\1\2", path)


class Sources:
    """The texts of a crate's `src`, by their path in the crate."""

    def __init__(self, crate):
        self.crate = pathlib.Path(crate)
        self.texts = {str(it.relative_to(crate)): it.read_text() for it in sorted(self.crate.glob("src/**/*.rt"))}
        types = re.compile(rf"(?m)^{PUB}(?:struct|enum) (\w+)(?:<(.*? = .*)> )?")
        self.homes = {  # of each type the module, and, where one has a default, how many parameters it has
            name: (module_of(file), len(re.findall(r"(?:^|, )\w", given)))
            for file, text in self.texts.items()
            for name, given in types.findall(text)
        }
        self.files = {path: file for file in self.texts for path, _, _ in self.functions(file)}

    def functions(self, file, text=None):
        return functions_of(self.texts[file] if text is None else text, module_of(file), self.homes)

    def place(self, file, at):
        """The function, or else the item, at a place; neither for a `use` line."""
        text = self.texts[file]
        line = text.count("\n", 0, at)
        function = next((path for path, first, last in self.functions(file) if first <= line <= last), None)
        if function or re.match(rf" *{PUB}use ", text.splitlines()[line]):
            return function, None
        items = [it[1] for it in ITEM.finditer(text) if text.count("\n", 0, it.start()) <= line]
        return None, items[-1] if items else file

    def with_bodies(self, bodies):
        """The texts that the bodies change together, or nothing if one can't be applied beside the others."""
        texts = {}
        for file, old, new in (it for body in bodies if not body.copy_of for it in body.changes):
            text = texts.get(file, self.texts[file])
            if text.count(old) != 1:
                return None
            texts[file] = text.replace(old, new)
        for body in (it for it in bodies if it.copy_of):
            file = self.files[body.copy_of]
            texts[file] = self.with_copy(file, texts.get(file, self.texts[file]), body)
        for path, body in ((path, body) for body in bodies if body.goals for path in body.changed):
            file = self.files[body.copy_of or path]
            first, last = next(at[1:] for at in self.functions(file, texts[file]) if at[0] == path)
            lines = texts[file].splitlines()
            made = without_tactics(lines[first : last + 1])
            texts[file] = "\n".join([*lines[:first], *made, *lines[last + 1 :]]) + "\n"
        return texts

    def with_copy(self, file, text, body):
        """The text of a file with a copy of the body's function after the function, which has the body."""
        (copy,) = body.changed
        made = self.text_of(body.copy_of)
        for _, old, new in body.changes:
            made = made.replace(old, new)
        made = re.sub(rf"\bfn {name_of(body.copy_of)}\b", f"fn {name_of(copy)}", made, count=1)
        if body.clauses:
            made = "\n".join(only_clauses(made.splitlines(), body.clauses))
        last = next(last for path, _, last in self.functions(file, text) if path == body.copy_of)
        lines = text.splitlines()
        return "\n".join([*lines[: last + 1], "", made, *lines[last + 1 :]]) + "\n"

    def text_of(self, path):
        """The text of a function, with what is above it."""
        file = self.files[path]
        first, last = next(at[1:] for at in self.functions(file) if at[0] == path)
        return "\n".join(self.texts[file].splitlines()[first : last + 1])

    def owner(self, path):
        """The head of the `impl` or the trait that a function is in; nothing elsewhere."""
        if not self.text_of(path).startswith(" "):
            return ""
        above = self.texts[self.files[path]].partition(self.text_of(path))[0].splitlines()
        return next(filter(None, (owner_line(above, it) for it in reversed(range(len(above))))), "")

    def is_generic(self, path):
        """Whether a function, or the block that it is in, has a type parameter."""
        heads = rf"\bfn {name_of(path)}<[^(]*\b[A-Z]|^ *(?:unsafe )?impl<[^>]*\b[A-Z]"
        return bool(re.search(heads, self.text_of(path))) or bool(re.match(heads, self.owner(path)))

    def is_for_others(self, path):
        """Whether other crates can call a function: it is `pub`, or a method of a trait."""
        is_pub = re.search(rf'(?m)^ *pub (?:const |unsafe |final |extern "C" )*fn {name_of(path)}\b', self.text_of(path))
        return bool(is_pub or re.search(r"\btrait\b| for ", self.owner(path)))

    def clauses(self, path):
        """The names of what a function ensures."""
        return re.findall(r"(?m)^ *ensures (\w+) \{", self.text_of(path))

    def proof(self, path):
        """What is written of a function's proof."""
        return "".join(it.read_text() for it in self.crate.joinpath("proofs", *path.split("::")).glob("*.antt"))

    def answered(self, path):
        """The goals of a function that its proof has answers for."""
        return {*re.findall(r"(?m)^pub (\S+) :", self.proof(path))}

    def answers(self, path):
        """The answers in a function's proof that are about its clauses, each with its name before it."""
        return re.findall(r"(?ms)^pub (returns\S*) : (.*?)(?=^pub |\Z)", self.proof(path))

    def answers_all(self, path):
        """Whether an answer is for all clauses at once."""
        return any("-clause-" not in name for name, _ in self.answers(path))

    def cited(self, path, labels):
        """The clauses whose answers those of these clauses cite."""
        texts = [text for name, text in self.answers(path) if name.partition("-clause-")[2] in labels]
        return {it for text in texts for it in re.findall(r"\breturns[\w-]*-clause-(\w+)", text)}

    def can_be_copied(self, body):
        """Whether a copy of the function that a body changes can be beside it, and be what refuses the body: not of
        a trait's method, nor where the function calls itself."""
        if not body.may_name_goals:
            return False
        (path,) = body.changed
        text, name, owner = self.text_of(path), name_of(path), self.owner(path)
        calls_itself = re.search(rf"(?:\bself\.|\bSelf::|(?<!fn )(?<![\w.:])){name}\(", text)
        if calls_itself or text.endswith(" }") and re.search(r"\btrait\b| for ", owner):
            return False
        return all(text.count(old) == 1 for _, old, _ in body.changes)

    def names(self, body, items):
        """Whether a file of the body's functions has the name of one of the items."""
        paths = {body.copy_of} if body.copy_of else body.functions
        texts = [self.texts[self.files[it]] for it in paths if it in self.files]
        return any(re.search(rf"\b{item}\b", text) for item in items for text in texts)

    def can_stand(self, body, others):
        """Whether neither the body's error can stem from another's change, nor another's from the body's."""
        for it in others:
            if body.functions & it.functions or body.items & it.items:
                return False
            if self.names(body, it.items) or self.names(it, body.items):
                return False
        return self.with_bodies([*others, body]) is not None


def read(path, sources):
    """A wrong body, or why it can't be applied."""
    file, old, changes = None, None, []
    refused, changed, items, clauses, goals = set(), set(), set(), set(), set()
    for line in path.read_text().splitlines():
        key, _, said = line.partition(": ")
        if key == "file":
            file = said.strip()
        elif key == "old":
            old = said
        elif key in ("new", "new:"):
            changes.append((file, old, said))
        elif key == "refused":
            refused.add(said.strip())
        elif key == "clause":
            clauses.add(said.strip())
        elif key == "goal":
            goals.add(said.strip())
    for file, old, _ in changes:
        if file not in sources.texts or not old:
            return "a change names no text of a file of src/"
        if (count := sources.texts[file].count(old)) != 1:
            return f"an old text occurs {count} times in {file}"
        function, item = sources.place(file, sources.texts[file].index(old) + len(old) - len(old.lstrip()))
        changed |= {function} - {None}
        items |= {item} - {None}
    if not changed | items:
        return "it changes nothing"
    if unknown := refused - sources.files.keys():
        return f"no function of src/ has the name {min(unknown)}"
    if unknown := clauses - {it for function in changed for it in sources.clauses(function)}:
        return f"no function that it changes has the clause {min(unknown)}"
    if others := {it for function in changed for it in sources.cited(function, clauses)} - clauses:
        return f"an answer of its clauses cites one of the clause {min(others)}, which has no line"
    if any(map(sources.answers_all, changed)):
        clauses = set()
    body = Body(path, tuple(changes), *map(frozenset, (refused, changed, items, clauses, goals)))
    return at_goals_of(body, sources) if goals else body


def batches_of(bodies, sources):
    """Batches, each body in the first that can hold it, itself or in a copy of its function; first those that can't
    are in a copy, and then those with the most rivals."""
    rivals = {body: sum(not sources.can_stand(body, [it]) for it in bodies) for body in bodies}
    copied = {body: sources.can_be_copied(body) for body in bodies}
    batches = []
    for body in sorted(bodies, key=lambda it: (copied[it], -rivals[it], it.path)):
        for batch in (it for it in batches if len(it) < MOST):
            copies = [body.in_copy(len(batch) + 1)] if copied[body] else []
            forms = copies if copies and (body.clauses or body.is_limited) else [body, *copies]
            if placed := next((it for it in forms if sources.can_stand(it, batch)), None):
                batch.append(placed)
                break
        else:
            batches.append([body.in_copy(1) if copied[body] and (body.clauses or body.is_limited) else body])
    return batches


def bodies_of(folder, names=()):
    """The wrong bodies in such folders by crate, and a line for each that can't be applied. A name is that of a crate,
    or of one body, as CRATE/BODY."""
    found, faults = {}, []
    for crate in sorted(ROOT.glob("crates/*")):
        paths = sorted(it for it in crate.glob(f"{folder}/*") if it.suffix != ".md")
        if names and crate.name not in names:
            paths = [it for it in paths if f"{crate.name}/{it.stem}" in names]
        if not paths:
            continue
        sources = Sources(crate)
        for path in paths:
            body = read(path, sources)
            if isinstance(body, str):
                faults.append(f"{path.relative_to(ROOT)}: {body}")
            else:
                found.setdefault(crate.name, []).append(body)
    return found, faults


def of_private(crate, bodies):
    """Those of a crate's wrong bodies that only functions must refuse which no other crate can call."""
    sources = Sources(ROOT / "crates" / crate)
    return [it for it in bodies if it.refused and not any(map(sources.is_for_others, it.refused))]


def named(body):
    """Whether a wrong body's name begins with what it changes, in lower case."""
    words = {name_of(it) for it in body.changed}
    words |= {it if it.isupper() else re.sub(r"(?<=[a-z])(?=[A-Z])", "_", it) for it in body.items}
    return body.path.stem.split("-")[0] in {it.lower() for it in words}
