"""What a check says of a wrong body: whether the prover refuses it, where, and for which clause."""

from __future__ import annotations

import re
from typing import Dict, List, Mapping, NamedTuple, Optional, Protocol, Sequence, Tuple

from edits import Place

# (that a proof names what the edit took away says nothing of the contract)
GONE = re.compile(r"has no field|is not in scope|has no `|was not admitted")
# an error at a line of a proof: its folder below proofs/, the goal where it names one, and what it says
ERROR = re.compile(r"(?m)(?:^|/)proofs/(?:(\S*)/)?[^\s/]+\.antt:\d+:\d+: error: (?:`([^`]+)`: )?(.*)")
# what a function's line says that is proved, over the contracts of functions whose proofs are left open or not
IS_PROVED = re.compile(r"proved|no holes|depends on a hole in .*")
REFUSED, MISSED, ELSEWHERE, BAD, UNSURE = "refused", "NOT REFUSED", "NOT REFUSED AS SAID", "BAD EDIT", "NOT TRIED"
KEPT, UNNAMED = " (kept from an earlier run)", "what rattle does not name"


def clause_of(goal: str) -> str:
    """The clause that a goal is of: `found` of `returns-then-bits-eq4-clause-found`."""
    return goal.rpartition("-clause-")[2] if "-clause-" in goal else "returns" if re.match(r"returns\b", goal) else goal


class Told(NamedTuple):
    """What a check says of functions, by their names."""

    # of each that is not proved the clauses of its goals that are left, of a proved one none
    goals: Dict[str, List[str]]
    # where lemmas no longer hold, as when a changed definition leaves no goal of a function: these, of each that is not proved
    lemmas: Dict[str, List[str]]


def told_in(said: str, places: Sequence[Place] = ()) -> Told:
    """What a check says of each function that it names."""
    told, errors = Told({}, {}), ERROR.findall(said)
    lemmas = list(dict.fromkeys(goal for _, goal, why in errors if goal and not GONE.search(why)))
    for name, words in re.findall(r"^fn \w+::(\S+): (.*)", said, re.M):
        if IS_PROVED.fullmatch(words):
            told.goals[name] = []
        if words.startswith("not proved") and lemmas:
            told.lemmas[name] = lemmas
        goals = re.search(r"did not prove (`[^;]*`)", words)
        left = re.findall(r"`([^`]+)`", goals[1]) if goals else []
        # (where its proof is by hand: what that does not prove, and what is open at its lines)
        folder = re.sub(r"(\w+)$", r"\\+?\1", name.replace("::", "/"))
        own = [(goal, why) for its, goal, why in errors if re.fullmatch(folder, its)]
        left += [goal or UNNAMED for goal, why in own if not GONE.search(why)]
        for file, line, goal in re.findall(r"^note: (src/\S+?):(\d+):\d+: it is not proved that .*?\(`([^`]+)`\)", said, re.M):
            left += [goal for it in places if it.name == name and it.file == file and it.first <= int(line) <= it.last]
        left += [] if left or own or "it calls `" in words else [UNNAMED]
        if words.startswith(("not proved", "no proof")) and left:
            told.goals[name] = list(dict.fromkeys(map(clause_of, left)))
    return told


class Asked(Protocol):
    """What a verdict asks of an edit."""

    @property
    def functions(self) -> Sequence[str]: ...

    @property
    def wanted(self) -> Mapping[str, Sequence[str]]: ...


def verdict(edit: Asked, told: Mapping[str, Sequence[str]]) -> Optional[Tuple[str, str]]:
    """What that says of an edit, and why; None where it says nothing of it."""
    refused = {name: told[name] for name in edit.functions or told if told.get(name)}
    where = "; ".join(f"{name}: {', '.join(goals)}" for name, goals in refused.items())
    if refused and all(any(it in refused.get(name, []) for it in goals) for name, goals in edit.wanted.items()):
        return REFUSED, where
    if refused:
        return ELSEWHERE, f"it was to be refused at {'; '.join(f'{name}: ' + ', '.join(it) for name, it in edit.wanted.items())}, and was at {where}"
    if edit.functions and all(name in told for name in edit.functions):
        return MISSED, "it is still proved"
    return None
