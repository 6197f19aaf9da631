"""The sums of docs/AUDIT.sums: a short SHA-256 of each believed definition and clause, by which a change of it is noticed.

    definition FILE NAME SUM            below crates/; of an `impl Trait for Type` its clauses and ghost items; `model_Type`: what contracts see of
                                        a type, and its invariant
    clause FILE CALL WHICH SUM          `requires` or `ensures` with its name, or `signature`, what is left without them
    fact CALLS CLAUSES SUM SUM          a line of docs/PROOFS.md, and the clauses that it tells (tools/citations.py)
    prose SECTION SUM                   what stands there in a section beside the facts

A sum is of the words, without comments and layout. A name that is imported stands with the path that it comes from, so that another
import under the same name is another sum.
"""
from __future__ import annotations

import hashlib
import re
from pathlib import Path
from typing import TYPE_CHECKING, Iterable, Iterator, Sequence

if TYPE_CHECKING:
    from reached import Node, Scope

FILE = Path(__file__).resolve().parent.parent / 'docs' / 'AUDIT.sums'
WORD = r"[^\W\d][\w'-]*(?:\.[^\W\d][\w'-]*)*|\d\w*|\S"
STRING = r'"(?:[^"\\\n]|\\.)*"'
PARTS = {'definition': 3, 'fact': 3, 'clause': 4, 'prose': 2}  # of a line, before its sums
CLAUSE = re.compile(r"\b((?:requires|ensures)\*?)(?: (\w+))? \{")
HEAD = """# The sums of what is believed, which tools/audit.py and tools/citations.py compare with the sources; tools/sums.py says of what.
# After a change of a believed line, read it, then `python3 tools/audit.py --renew`, or `python3 tools/citations.py --renew` for facts.
"""


def short(words: Iterable[str]) -> str:
    return hashlib.sha256(' '.join(words).encode()).hexdigest()[:12]


def uncommented(text: str, suffix: str) -> str:
    comment = '--' if suffix == '.antt' else '//'
    return re.sub(rf"({STRING})|{comment}[^\n]*", lambda found: found.group(1) or ' ', text)


def sum_of(scope: Scope, text: str, suffix: str) -> str:
    """The sum of a text whose names mean what they mean in this scope."""
    words = re.findall(rf"{STRING}|{WORD}", uncommented(text, suffix))
    there, told = set(words), []
    for word in words:
        head = word.partition('.')[0]
        path = scope.aliases.get(head) or '.'.join(scope.names.get(head, ()))
        told += [word, path] if path else [word]
    for name, parts in sorted(scope.names.items()):  # as ∥◌∥₁, which is no word by itself
        if '◌' in name and there.issuperset(re.findall(WORD, name.replace('◌', ' '))):
            told.append('.'.join(parts))
    return short(told)


def end_of_braces(text: str, at: int) -> int:
    depth = 1
    while depth:
        depth += {'{': 1, '}': -1}.get(text[at], 0)
        at += 1
    return at


def clauses_of(call: Node) -> list[tuple[str, str, str]]:
    """The clauses of a call, and its signature: how each is called, and its text."""
    text, found, rest, at = uncommented(call.written, '.rt'), [], '', 0
    for clause in CLAUSE.finditer(text):
        if clause.start() >= at:
            end = end_of_braces(text, clause.end())
            found.append((clause.group(1), clause.group(2) or '', text[clause.end():end - 1]))
            rest, at = rest + text[at:clause.start()], end
    return found + [('signature', '', re.sub(r"\s*(\{\s*\}?|;)\s*$", '', rest + text[at:]))]


def sums(nodes: Iterable[Node]) -> dict[str, str]:
    """The lines of these definitions and calls: what each is of, and its sum."""
    found = {}

    def add(key: str, told: str) -> None:
        while key in found:
            key += '+'
        found[key] = told

    for node in sorted(nodes, key=lambda node: (node.place, node.name, node.lines[0])):
        if not node.is_call:
            add(f"definition {node.place} {node.name.replace(' ', '_')}", sum_of(node.scope, node.written, node.suffix))
            continue
        call, clauses = f"{node.of}::{node.name}" if node.of else node.name, clauses_of(node)
        for kind, name, text in clauses if len(clauses) > 1 else []:  # a call without clauses promises nothing
            add(f"clause {node.place} {call} {kind}{name and ':' + name}", sum_of(node.scope, text, '.rt'))
    return found


def kept() -> dict[str, str]:
    """The lines of the file: what each is of, and its sums."""
    found = {}
    for line in FILE.read_text().split('\n') if FILE.is_file() else []:
        if line and not line.startswith('#'):
            parts = line.split(' ')
            length = PARTS[parts[0]]
            found[' '.join(parts[:length])] = ' '.join(parts[length:])
    return found


def differences(told: dict[str, str], kinds: Sequence[str]) -> Iterator[str]:
    """What the file says otherwise than these lines, of these kinds."""
    old = {key: value for key, value in kept().items() if key.split(' ')[0] in kinds}
    for key in sorted(old.keys() | told.keys()):
        if key not in told:
            yield f"{key} is not there any more"
        elif key not in old:
            yield f"{key} has no sum"
        elif old[key] != told[key]:
            yield f"{key} is another than was read"


def renew(told: dict[str, str], kinds: Sequence[str]) -> None:
    """Writes these lines in place of the file's of these kinds."""
    lines = {key: value for key, value in kept().items() if key.split(' ')[0] not in kinds} | told
    FILE.write_text(HEAD + ''.join(f"{key} {lines[key]}\n" for key in sorted(lines)))
