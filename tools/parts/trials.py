"""Checks of a crate with wrong bodies in it: what each says of them."""
import os
import pathlib
import re
import shutil
import subprocess
import tempfile

from parts.answers import limited_answers, refused_answers, rights_of
from parts.bodies import UNNAMED, Sources, function_of, name_of, without_body
from kit.processes import seconds_of

# How an error says that a tactic found no proof, or that a written answer proves another thing than the goal; and that
# a written answer names what is no longer there.
UNPROVED = re.compile(
    r"`(?:search|grind|omega|simp|rw|cc)\b|types (?:(?:first )?differ|are)\b|one side reads\b|expected type"
)
GONE = re.compile(r"is not in scope|has no field|has no `|was not admitted|is no name")
# A proof that is a hole: `--allow-holes` has antt take its declaration by the signature, and go on.
HOLE = """use {module}.Statement.{{statement}}

left_out : {{A : Type 2}} → A
left_out = ?

pub {name}_spec : {{M : Type 1}} → statement M
{name}_spec = left_out
"""
# The end of a function's answers: an error, as no name is so. A check offers answers for the goals that it leaves open,
# which takes about as long as the goals do, but none where a function's own answers have an error.
NO_OFFERS = """
no_offers : Type 0
no_offers = not_in_scope
"""
LAST = "no_offers"
LEFT_OPEN = re.compile(r"note: (src/\S+\.rt):(\d+):\d+: it is not proved that .*?(?:\(`([^`]+)`\)|$)")
CHECKED = re.compile(r"checked \w+::(\S+), \d+ of \d+")
CLAUSE = re.compile(r"\bclause-([a-z]\w*)")
ANSWER = re.compile(r": error: `([^`]+)`: ")
DEAR = 8  # processor seconds of a function that a batch names


def unproved_of(rights, said):
    """The goals that functions as they are can't be proved at by the limited answers: their functions and names. That
    a check read a copy's answers to their end shows in its error at the last of them."""
    refused = refused_answers(said)
    every = ((it.copy_of, path, goal) for it in rights for path in it.changed for goal in it.goals)
    return {(of, goal) for of, path, goal in every if (path, goal) in refused or (path, LAST) not in refused}


def at_goals(bodies, refusals, unproved):
    """The refusals, of bodies that are tried at some goals alone those there, but for unproved ones."""
    goals = {
        path: {it for it in body.goals if (body.copy_of, it) not in unproved}
        for body in bodies
        for path in body.changed
        if body.goals
    }
    kept = {
        path: [it for it in lines if path not in goals or (at := ANSWER.search(it)) and at[1] in goals[path]]
        for path, lines in refusals.items()
    }
    return {path: lines for path, lines in kept.items() if lines}


class Trial:
    """The trials of a crate's wrong bodies, and the processor seconds of their checks."""

    def __init__(self, rt, crate):
        self.rt, self.crate, self.sources = rt, crate, Sources(crate.folder)
        self.costs, self.dear, self.labels, self.seconds = {}, [], {}, 0
        self.answered, self.left = {}, {}  # of each body the goals that answers refuse, and those left open

    def check(self, bodies, only=(), offers=True):
        """What a check of these functions, or else of all, says of a copy with these bodies, and the texts it read. It
        offers answers if that is asked for."""
        texts = self.sources.with_bodies(bodies)
        paths = {it for body in bodies for it in body.functions}
        holes = self.holes(texts, paths) if only else {}
        texts = {**texts, **holes}
        words = [word for path in sorted(only) for word in ("--only", path)]
        flags = ["--jobs", "1", *words, *(["--allow-holes"] if only else [])]
        with tempfile.TemporaryDirectory(prefix="wrong-bodies-copy-") as copy:
            for part in filter(os.path.isdir, (f"{self.crate.folder}/{it}" for it in self.rt.rtlib.PARTS)):
                shutil.copytree(part, f"{copy}/{os.path.basename(part)}")
            self.copy_proofs(bodies, pathlib.Path(copy, "proofs"))
            for proof in [] if offers else (pathlib.Path(copy, "proofs", *path.split("::")) for path in paths):
                if not proof.joinpath("Proof.antt").exists():
                    proof.mkdir(parents=True, exist_ok=True)
                    with proof.joinpath("Answers.antt").open("a") as file:
                        file.write(NO_OFFERS)
            for file in holes:  # no other proof of the function may be beside it
                if file.endswith(".antt"):
                    shutil.rmtree(os.path.dirname(f"{copy}/{file}"), ignore_errors=True)
            for file, text in texts.items():
                os.makedirs(os.path.dirname(f"{copy}/{file}"), exist_ok=True)
                pathlib.Path(copy, file).write_text(text)
            # Nothing is kept for the next batch: what it would save is less than what a check spends on keeping it.
            words = [self.rt.rtlib.RATTLE, "check", *self.crate.words(flags, keeps=False), "--progress"]
            return self.run([*self.rt.rtlib.guarded(), *words], copy), texts

    def run(self, words, folder):
        """Runs a check, and notes the processor seconds of each function, but for the first, whose are the start's."""
        how = {"cwd": folder, "stdin": subprocess.DEVNULL, "stdout": subprocess.PIPE, "stderr": subprocess.STDOUT}
        self.costs, lines, before = {}, [], None
        with subprocess.Popen(words, **how, text=True, errors="replace") as ran:
            for line in ran.stdout:
                lines.append(line)
                if at := CHECKED.match(line):
                    now = seconds_of(ran.pid)
                    if before is not None:
                        self.costs[at[1]] = now - before
                    before = now
            _, status, used = os.wait4(ran.pid, 0)
            ran.returncode = os.waitstatus_to_exitcode(status)
        self.seconds += used.ru_utime + used.ru_stime
        return subprocess.CompletedProcess(words, ran.returncode, "".join(lines))

    def dearest(self, left_open, bodies):
        """A line for each function that took long in the last check: its bodies, and the goals without an answer."""
        untried = {path for body in bodies if body.goals for path in body.changed}
        left_open = {path: left for path, left in left_open.items() if path not in untried}
        for path in sorted(self.costs, key=self.costs.get, reverse=True)[:5]:
            if self.costs[path] < DEAR:
                return
            names = ", ".join(sorted(it.path.stem for it in bodies if path in it.functions)) or "no body"
            left = ", ".join(left_open.get(path, ()))
            yield f"  {self.costs[path]:.0f} s: {path} ({names}){f'; without an answer: {left}' if left else ''}"

    def copy_proofs(self, bodies, proofs):
        """Gives each copy of a function what the function has for a proof, by the copy's name."""
        for body in (it for it in bodies if it.copy_of):
            (copy,) = body.changed
            given, made = (proofs.joinpath(*it.split("::")) for it in (body.copy_of, copy))
            for file in given.glob("*.antt"):
                module, name = re.escape(body.copy_of.replace("::", ".")), name_of(body.copy_of)
                text = re.sub(rf"(?<=\bproofs\.){module}(?=\.)", copy.replace("::", "."), file.read_text())
                made.mkdir(exist_ok=True)
                (made / file.name).write_text(text.replace(f"{name}_spec", f"{name_of(copy)}_spec"))
            if body.is_limited:
                module = ".".join(["Rattle", self.crate.name, "proofs", *copy.split("::")])
                made.mkdir(parents=True, exist_ok=True)
                text = limited_answers(module, body.goals, self.sources.is_generic(body.copy_of))
                (made / "Answers.antt").write_text(text)

    def holes(self, texts, named):
        """The files that leave each function but these a hole for a proof, and a body that costs nothing to read."""
        found = {}
        for file in self.sources.texts:
            lines = texts.get(file, self.sources.texts[file]).splitlines()
            for path, first, last in reversed([*self.sources.functions(file, "\n".join(lines))]):
                is_test = any("#[test]" in it for it in lines[first:last])
                if path in named or UNNAMED in path or is_test or not lines[last].endswith("}"):
                    continue
                parts = path.split("::")
                module = ".".join(["Rattle", self.crate.name, "proofs", *parts])
                found["/".join(["proofs", *parts, "Proof.antt"])] = HOLE.format(module=module, name=parts[-1])
                lines[first : last + 1] = without_body(lines[first : last + 1])
            found[file] = "\n".join(lines) + "\n"
        return found

    def lines_of(self, said, words):
        """The lines of a check on functions of which it says this, by the function."""
        found = re.finditer(rf"(?m)^fn {self.crate.name}::(\S+): {words}", said)
        return {function_of(at[1]): at[0] for at in found}

    def fault(self, ran, texts, bodies):
        """Why a check says nothing of these bodies, if so."""
        lines = ran.stdout.splitlines() or [""]
        for line in lines:
            if re.search(r"\berror\[[\w-]+\]", line) or self.rt.unread(line, texts):
                return f"BAD, as it can't be read: {line[:300]}"
        if ran.returncode not in (0, 1) or self.rt.rtlib.STALE.search(ran.stdout):
            return f"NOT TRIED, as its check ended with status {ran.returncode}: {lines[-1][:300]}"
        lost = {it for body in bodies for it in body.changed} - self.lines_of(ran.stdout, "").keys()
        return f"NOT TRIED, as its check says nothing of {min(lost)}" if lost else None

    def left_open(self, said, texts):
        """The goals of each function that no answer is written for, and that aren't proved: their names and lines."""
        places = {file: [*self.sources.functions(file, texts.get(file))] for file in self.sources.texts}
        found = {}
        for at in filter(None, map(LEFT_OPEN.match, said.splitlines())):
            for path in [path for path, first, last in places[at[1]] if first < int(at[2]) <= last + 1]:
                found.setdefault(path, {})[at[3]] = at[0]
        return found

    def unread(self, bodies):
        """Of each body that the front end can't read beside the others, why; nothing is proved."""
        ran, texts = self.check(bodies, [""], offers=False)
        found = {}
        for at in re.finditer(r"(?m)^(?:\./)?(src/\S+\.rt):(\d+):\d+: error.*", ran.stdout):
            places = self.sources.functions(at[1], texts.get(at[1]))
            paths = {path for path, first, last in places if first < int(at[2]) <= last + 1}
            for body in [it for it in bodies if it.changed & paths] or bodies:
                found.setdefault(body, f"BAD, as it can't be read: {at[0][:300]}")
        return found

    def refusals(self, said, texts):
        """The lines that refuse a goal of each function that isn't proved."""
        found = {path: [] for path in self.lines_of(said, "not proved")}
        found |= {path: [line] for path, line in self.lines_of(said, "no proof: .*`search` did not prove `.*").items()}
        for path, goals in self.left_open(said, texts).items():
            found.get(path, []).extend(goals.values())
        for line in said.splitlines():
            if at := re.match(r"(?:\./)?proofs/(\S+)/\w+\.antt:\d+:\d+: error: (.*)", line):
                if UNPROVED.search(at[2]) and not GONE.search(at[2]):
                    found.get(function_of(at[1].replace("/", "::")), []).append(line)
        return {path: lines for path, lines in found.items() if lines}

    def tried(self, bodies, offers=False):
        """Of each body, why it isn't refused, or nothing."""
        rights = [*rights_of(bodies)]
        every = [*bodies, *rights]
        ran, texts = self.check(every, {it for body in every for it in body.functions}, offers)
        self.dear = [*self.dearest(self.left_open(ran.stdout, texts), every)]
        refusals = self.refusals(ran.stdout, texts)
        if why := self.fault(ran, texts, every):
            unread = self.unread(bodies)
            read = [it for it in bodies if it not in unread]
            return {**unread, **self.tried(read, offers)} if unread and read else dict.fromkeys(bodies, why)
        if strays := refusals.keys() - {it for body in every for it in body.functions}:
            why = f"NOT TRIED, as {', '.join(sorted(strays))} isn't proved, and no `refused:` names it"
            return dict.fromkeys(bodies, why)
        refusals = at_goals(bodies, refusals, unproved_of(rights, ran.stdout))
        self.labels |= {body: self.clauses_of(body, refusals) for body in bodies}
        self.note_goals(bodies, refusals)
        return {body: None if body.refused & refusals.keys() else "NOT REFUSED" for body in bodies}

    def clauses_of(self, body, refusals):
        """The labels of the clauses at whose goals a body was refused, those first that a written answer refuses."""
        lines = [line for path in sorted(body.refused & refusals.keys()) for line in refusals[path]]
        lines.sort(key=lambda line: bool(LEFT_OPEN.match(line)))
        return list(dict.fromkeys(label for line in lines for label in CLAUSE.findall(line)))

    def note_goals(self, bodies, refusals):
        """Notes of each body the goals of its functions that written answers refuse, and those that it leaves open."""
        for body in bodies:
            lines = [line for path in sorted(body.refused & refusals.keys()) for line in refusals[path]]
            self.answered[body] = [at[1] for at in map(ANSWER.search, lines) if at]
            self.left[body] = [at[3] for at in map(LEFT_OPEN.match, lines) if at and at[3]]

    def where(self, body):
        """Where a check of all functions refuses a body."""
        ran, texts = self.check([body])
        if why := self.fault(ran, texts, [body]):
            return f"{body}: {why}"
        refusals = self.refusals(ran.stdout, texts)
        outcome = "refused at" if refusals else "NOT REFUSED"
        return "\n".join([f"{body}: {outcome}", *(f"refused: {path}" for path in refusals)])
