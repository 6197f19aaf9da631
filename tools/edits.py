"""Wrong bodies as they stand in the tree: what each changes, in which functions, and which can be put into one copy of their crate."""

from __future__ import annotations

import functools
import glob
import os
import re
from pathlib import Path
from typing import Dict, Iterable, List, Mapping, NamedTuple, Optional, Sequence, Tuple, Union

PARTS = ("src", "specs", "proofs")
FN = re.compile(r'^(\s*)(?:pub(?:\([a-z]+\))? )?(?:const )?(?:unsafe )?(?:extern "C" )?fn (\w+)')
TYPE = re.compile(r"(?m)^(?:pub(?:\([a-z]+\))? )?(?:struct|enum|union) (\w+)")
CLAUSE = re.compile(r"\s*(?:requires|ensures|ghost|where|measure|decreases|#\[|///)")
PROMISE = re.compile(r"(?m)^# promise: (\S.*)$")
WANTED = re.compile(r"(?m)^# refused: (\S+): (\S.*)$")


class Alone(str):
    """Why a wrong body is tried alone."""


class Place(NamedTuple):
    """A function by the name that rattle gives it below the crate, its file and its first and last line."""

    name: str
    file: str
    first: int
    last: int


class Edit:
    """A wrong body: what it changes, the functions whose bodies have all of that, or why it is tried alone, and where it must be refused."""

    def __init__(self, path: str) -> None:
        self.folder, self.name = os.path.dirname(os.path.dirname(path)), os.path.basename(path)[: -len(".edit")]
        self.path, self.label = path, f"{os.path.basename(self.folder)}/{self.name}"
        text = Path(path).read_text(encoding="utf-8")
        promised = PROMISE.search(text)
        self.promise = promised and promised[1]
        self.wanted = {function: goals.split(", ") for function, goals in WANTED.findall(text)}
        self.pairs = pairs_of(text)
        self.fault = self.fault_in({})
        homes = homes_in(self.folder)
        found = [] if self.fault else [place_in(file, Path(f"{self.folder}/{file}").read_text(encoding="utf-8"), old, homes) for file, old, _ in self.pairs]
        self.alone: Optional[str] = self.fault or next((it for it in found if isinstance(it, Alone)), None)
        self.places = [] if self.alone else [it for it in found if isinstance(it, Place)]
        self.functions = list(self.wanted) if self.alone else list(dict.fromkeys(it.name for it in self.places))

    def fault_in(self, texts: Dict[str, str]) -> Optional[str]:
        """Puts it into texts by their file, all or nothing; returns why it can't be put there, if it can't."""
        laid = dict(texts)
        before: Dict[str, str] = {}
        for file, old, new in self.pairs:
            if file not in laid:
                if not file.startswith(tuple(f"{it}/" for it in PARTS)) or not os.path.isfile(f"{self.folder}/{file}"):
                    return f"there is no {file}"
                laid[file] = Path(f"{self.folder}/{file}").read_text(encoding="utf-8")
            before.setdefault(file, laid[file])
            if laid[file].count(old) != 1:
                return f"an 'old:' text is in {file} {laid[file].count(old)} times, and not once"
            laid[file] = laid[file].replace(old, new)
        if all(laid[file] == was for file, was in before.items()):
            return "it changes nothing" if self.pairs else "it has no pair of lines 'old:' and 'new:' behind a line 'file:'"
        texts.update(laid)
        return None

    def note(self, found: Mapping[str, Sequence[str]]) -> None:
        """Writes into its file where it was refused."""
        kept = WANTED.sub("", Path(self.path).read_text(encoding="utf-8")).lstrip("\n")
        with open(self.path, "w", encoding="utf-8") as it:
            it.write("".join(f"# refused: {function}: {', '.join(goals)}\n" for function, goals in found.items()) + kept)


def pairs_of(text: str) -> List[Tuple[str, str, str]]:
    """The changes of an edit: file, old and new text."""
    file, old, pairs = "", "", []
    for line in text.split("\n"):
        word, _, rest = line.partition(":")
        rest = rest[1:] if rest.startswith(" ") else rest
        if word == "file":
            file = rest.strip()
        elif word == "old":
            old = rest
        elif word == "new" and file and old:
            pairs.append((file, old, rest))
            old = ""
    return pairs


@functools.lru_cache(maxsize=None)
def homes_in(folder: str) -> Mapping[str, List[str]]:
    """For each type of a crate the modules that it is defined in."""
    homes = {}
    for path in glob.glob(f"{folder}/src/**/*.rt", recursive=True):
        for name in TYPE.findall(Path(path).read_text(encoding="utf-8")):
            homes[name] = modules_of(os.path.relpath(path, folder))
    return homes


def modules_of(file: str) -> List[str]:
    """The modules of a file src/.. below its crate."""
    inside = file[len("src/"): -len(".rt")]
    inside = inside[: -len("/mod")] if inside.endswith("/mod") else inside
    return [] if inside in ("lib", "main") else inside.split("/")


def place_in(file: str, text: str, old: str, homes: Mapping[str, List[str]]) -> Union[Place, Alone]:
    """The function whose body has this text, or why there is none."""
    if not file.startswith("src/"):
        return Alone("it changes more than code")
    lines, at = text.split("\n"), text[: text.index(old)].count("\n")
    head = next((it for it in range(at, -1, -1) if FN.match(lines[it])), None)
    if head is None or CLAUSE.match(lines[at]):
        return Alone("it changes a clause, or what is in no function")
    opened, closed = body(lines, head)
    if not opened < at < closed:
        return Alone("it changes what is in no body of a function")
    above = attributes(lines, head)
    if any("cycle(" in it for it in above):
        return Alone("its function is in a cycle")
    name = named(file, lines, head, homes)
    return name if isinstance(name, Alone) else Place(name, file, head + 1 - len(above), closed + 1)


def body(lines: Sequence[str], head: int) -> Tuple[int, int]:
    """The lines between which the body of a function stands."""
    opened = next((it for it in range(head, len(lines)) if lines[it].rstrip().endswith("{") and depth(lines[it]) <= depth(lines[head])), head)
    closed = next((it for it in range(opened, len(lines)) if lines[it].startswith(" " * depth(lines[head]) + "}")), len(lines))
    return opened, closed


def named(file: str, lines: Sequence[str], head: int, homes: Mapping[str, List[str]]) -> str:
    """The function's name below its crate, or why it has none that is known. A method stands in its type's module, wherever its `impl` stands."""
    name = name_in(lines[head])
    if not depth(lines[head]):
        return "::".join([*modules_of(file), name])
    of = type_of_impl(impl_over(lines, head))
    if not of or depth(lines[head]) > depth("    "):
        return Alone("its function is in another one, or in a trait")
    return "::".join([*homes.get(of, modules_of(file)), of, name])


def impl_over(lines: Sequence[str], head: int) -> str:
    """The first words of the `impl` that a method stands in, up to its brace."""
    owner = next((it for it in range(head, -1, -1) if not depth(lines[it]) and lines[it].strip()), head)
    last = next((it for it in range(owner, head) if lines[it].rstrip().endswith("{")), owner)
    return " ".join(line.strip() for line in lines[owner: last + 1])


def name_in(line: str) -> str:
    """The name of the function that begins in a line."""
    found = FN.match(line)
    assert found, line
    return found[2]


def type_of_impl(head: str) -> str:
    """What rattle names a method after: the type of its impl, and behind it the trait, if it is of one."""
    head = head.replace("->", "")
    while re.search(r"<[^<>]*>", head):
        head = re.sub(r"<[^<>]*>", "", head)
    found = re.match(r"impl +(?:(?:\w+::)*(\w+) +for +)?(?:\w+::)*(\w+)\b", head)
    return found[2] + (found[1] or "") if found else ""


def depth(line: str) -> int:
    return len(line) - len(line.lstrip())


def attributes(lines: Sequence[str], head: int) -> List[str]:
    """The lines above a function that are its attributes."""
    found = []
    while head and re.match(r"\s*(?:#\[|///)", lines[head - 1]):
        head -= 1
        found.append(lines[head])
    return found


class Copy:
    """A copy of a crate with some wrong bodies in it, no two in one function."""

    def __init__(self) -> None:
        self.edits: List[Edit] = []
        self.texts: Dict[str, str] = {}

    def functions(self) -> List[str]:
        return [function for edit in self.edits for function in edit.functions]

    def takes(self, edit: Edit) -> bool:
        if {*edit.functions} & {*self.functions()} or edit.fault_in(self.texts):
            return False
        self.edits.append(edit)
        return True


def copies_of(edits: Iterable[Edit]) -> List[Copy]:
    """As few copies as take all that needn't be tried alone."""
    copies: List[Copy] = []
    for edit in edits:
        if not edit.alone and not any(it.takes(edit) for it in copies):
            copies.append(Copy())
            copies[-1].takes(edit)
    return copies
