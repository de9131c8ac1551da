"""Answers with a step limit, for goals of copies of functions; and the lines that name such goals."""
import re
from dataclasses import replace

# Within few steps a goal that holds is still proved, and one that doesn't is refused before its declaration is tried
# again with more definitions opened. That the call itself breaks off at the limit is no refusal: nothing is known then.
CALL = "search rules steps 300000"
ANSWERS = """use Rattle.std.proofs.Common.{{rules}}
use {module}.Goals as goal
"""
ERROR = r"(?m)^(?:\./)?proofs/(\S+)/Answers\.antt:\d+:\d+: error: "
REFUSED = re.compile(ERROR + r"`([^`]+)`")
UNCHECKED = re.compile(ERROR + r".*not checked: (.*)")


def at_goals_of(body, sources):
    """A body that names goals, with those that answers are written for, or else limited; or why it can't be tried so."""
    if not body.may_name_goals:
        return "it names a goal, and changes or is refused by more than one function"
    answered = body.goals & sources.answered(*body.changed)
    if not answered and not sources.can_be_copied(body):
        return f"no answer of its function, of which no copy can be, has the name {min(body.goals)}"
    return replace(body, goals=answered or body.goals, is_limited=not answered)


def rights_of(bodies):
    """A copy of each function as it is that bodies with limited answers are tried at: its goals are theirs."""
    found = {}
    for body in (it for it in bodies if it.is_limited):
        found.setdefault(body.copy_of, []).append(body)
    for function, its in found.items():
        clauses = frozenset().union(*(it.clauses for it in its)) if all(it.clauses for it in its) else frozenset()
        goals = frozenset().union(*(it.goals for it in its))
        right = replace(its[0], changes=(), changed=frozenset([function]), clauses=clauses, goals=goals)
        yield right.in_copy("as_it_is")


def limited_answers(module, goals, is_generic):
    """The text of a proof's answers: one with a step limit at each of these goals."""
    arguments = "g c" if is_generic else "c"
    added = (f"\npub {name} : goal.{name}\n{name} {arguments} = {CALL}\n" for name in sorted(goals))
    return ANSWERS.format(module=module) + "".join(added)


def refused_answers(said):
    """The answers that a check refuses, for whatever reason, or that it doesn't come to: their functions and names."""
    found = [*REFUSED.findall(said)]
    found += [(path, name) for path, names in UNCHECKED.findall(said) for name in names.split(", ")]
    return {(path.replace("/", "::"), name) for path, name in found}


def write_goal(body, name):
    """Writes into a wrong body's file at which goal it is refused."""
    lines = body.path.read_text().splitlines()
    last = max(number for number, line in enumerate(lines) if line.startswith(("refused: ", "clause: ")))
    lines.insert(last + 1, f"goal: {name}")
    body.path.write_text("\n".join(lines) + "\n")
