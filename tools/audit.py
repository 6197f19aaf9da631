#!/usr/bin/env python3
"""Which definitions must be read to believe the headline.

    python3 tools/audit.py            compares docs/AUDIT.md and docs/AUDIT.sums with the sources; status 1 where they disagree
    python3 tools/audit.py --renew    writes the page's numbers and the sums anew; a file in no row, or in one too many, and the
                                      list of Inner are left to their reader
    python3 tools/audit.py --mutate N [--seed S]    makes N small changes of believed lines, each in a copy, and says how many of
                                      them were noticed there
    python3 tools/audit.py --files    prints each file that is reached, with how many of its lines
    python3 tools/audit.py --names    prints each definition that is reached, with its lines
    python3 tools/audit.py --rest     prints each file of definitions of which nothing is reached
    python3 tools/audit.py --inner    prints what of specs/Inner a public clause reaches, and by which calls
    python3 tools/audit.py --bare     prints each public call that no clause says what it promises
    python3 tools/audit.py --kit      prints the words of the kit's crates that are reached
    python3 tools/audit.py --files --from interp::invoke ..     the same from these calls in place of the page's

It starts from the calls that docs/AUDIT.md lists, takes their clauses and the types of their arguments, follows each name
to its definition, and so on. Of a Rust type it takes the fields, and the ghost fields where they are public; where the
type has a `Model`, its `Value` alone. Of an `impl` of a trait for it, the clauses, and the ghost items that a clause of the
trait names (the others are proofs); of a trait of this repository only where that is reached. It follows no invariant, no
`view`, no private ghost field, and no `impl From`, which says what a `?` makes. A name is a token: a bound variable that is
called as a definition counts as that. So it may ask for some lines too many, and leaves none out.

docs/AUDIT.sums has a sum (tools/sums.py) of each clause of a call that docs/AUDIT.md or docs/PROOFS.md names, or that is public in a
public module, and of each definition that these reach: who changes a believed line has to renew it, and the difference shows
which was changed. It has one too of the model of each type that they reach, its invariant included, though these need not be read.

It also compares what is reached with where it stands: what these calls reach of specs/Inner is what the page lists, and a file
of specs/ outside Inner is reached by one of them. And each public call that no clause says what it promises is one that the page
lists, with its reason: by its name, as `crate::Type::{one, other}`, or with all of its crate or type.
"""
from __future__ import annotations

import argparse
import re
import sys
from pathlib import Path
from typing import Iterable, Iterator

import sums
from reached import CRATES, Node, Tree, read
from sources import TOP

PAGE, PROOFS = TOP / 'docs' / 'AUDIT.md', TOP / 'docs' / 'PROOFS.md'
PUBLIC = re.compile(r"^ *(?:abbrev|unfoldable) pub |^ *pub (?:record|data) |^pub (?!mod )", re.M)


def as_line(text: str) -> str:
    """A row of docs/PROOFS.md, whose calls are links, as the line that it would be in a list; other lines as they are."""
    row = re.fullmatch(r"(\[?`.*?) \| (.*)", text)
    return "- " + re.sub(r"\[(`[^`]+`)\]\([^)]*\)", r"\1", row[1]) + ": " + row[2] if row else text


def named_in(page: str) -> list[tuple[str, str]]:
    """The calls that a page names."""
    page = '\n'.join(map(as_line, page.split('\n')))
    return sorted(set(re.findall(r"`([a-z_]+::[\w:]+)`|^- `(\w+)`:", page, re.M)) - {('crate::call', '')})


def listed(page: str) -> list[str]:
    """The calls of the headline, which the page numbers."""
    return re.findall(r"`([a-z_]+::[\w:]+)`", '\n'.join(re.findall(r"^\d+\. .*", page, re.M)))


def calls_of(tree: Tree, headline: list[str]) -> list[Node]:
    """The calls of the headline, those that PROOFS names, and all other public ones."""
    exporting = {node.scope.crate for nodes in tree.calls.values() for node in nodes if 'extern' in node.text}
    named = {call or crate for call, crate in named_in(read(PROOFS)) if call or crate in exporting}
    found = [node for call in sorted({*headline, *named}) for node in tree.roots(call)] + list(tree.public_calls())
    return list({id(node): node for node in found if not node.scope.crate.startswith('test_')}.values())


def inner_reached(tree: Tree, calls: list[Node]) -> dict[str, tuple[set[str], set[str]]]:
    """What of specs/Inner these calls reach: for each file the definitions, and the calls."""
    found: dict[str, tuple[set[str], set[str]]] = {}
    for call in calls:
        for node in tree.reach_from([call]):
            if '/Inner' in node.place:
                names, by = found.setdefault(node.place, (set(), set()))
                names.add(node.name)
                by.add('::'.join(filter(None, [call.scope.crate, call.of or '', call.name])))
    return found


def inner_lines(tree: Tree, calls: list[Node]) -> Iterator[str]:
    """The lines of the page that say so."""
    for place, (names, by) in sorted(inner_reached(tree, calls).items()):
        more = len(by) - 1
        yield f"- {place}: {' '.join(sorted(names))}; by `{min(by)}`{f' and {more} more' if more else ''}"


def misplaced(tree: Tree, page: str, reached: Iterable[str], calls: list[Node]) -> Iterator[str]:
    """What stands in specs/Inner and is reached, if the page doesn't say so; and what stands outside and is not."""
    told, found = set(re.findall(r"^- \w+/specs/Inner.*", page, re.M)), set(inner_lines(tree, calls))
    yield from (f"docs/AUDIT.md: it doesn't say: {line}" for line in sorted(found - told))
    yield from (f"docs/AUDIT.md: this is not so: {line}" for line in sorted(told - found))
    more = {node.place + node.suffix for node in tree.reach_from(calls)} | set(reached)
    for name in sorted({str(file.relative_to(CRATES)) for file, _ in tree.nodes if file.suffix == '.antt'} - more):
        if '/specs/Inner' not in name and PUBLIC.search(read(CRATES / name)):  # else it has lemmas alone
            yield f"{name}: no public clause reaches it, and it stands outside Inner"


def bare(tree: Tree) -> Iterator[str]:
    """The public calls of libraries without a clause of what they promise."""
    for call in tree.public_calls():
        if not call.scope.crate.startswith(('test_', 'example_')) and not re.search(r"^\s+ensures\b", call.written, re.M):
            yield '::'.join(filter(None, [call.scope.crate, call.of or '', call.name]))


def excused(page: str) -> Iterator[str]:
    """The calls that the page's list of such calls names, or the types and crates."""
    lines = page.partition('## Public calls without a clause\n')[2].partition('\n## ')[0]
    heads = ' '.join(re.split(r"\.\s", item)[0] for item in lines.split('\n- ')[1:])
    for head, names in re.findall(r"`([a-z_]+(?:::\w+)*?)(?:::\{([\w,\s]+)\})?`", heads):
        yield from (f"{head}::{name}" for name in re.findall(r"\w+", names)) if names else [head]


def unexcused(tree: Tree, page: str) -> Iterator[str]:
    """Which of them the page doesn't list, and which it lists that are none."""
    found, told = set(bare(tree)), set(excused(page))
    covered = {call: [name for name in told if f"{call}::".startswith(f"{name}::")] for call in found}
    yield from (f"docs/AUDIT.md: {call} has no clause, and isn't listed" for call in sorted(found) if not covered[call])
    yield from (f"docs/AUDIT.md: {name} is listed, and is no such call" for name in sorted(told - {one for names in covered.values() for one in names}))


KINDS = 'definition', 'clause'
ROW = re.compile(r"^\| ([a-z_]+/(?:specs|src)(?:/\w+)*: [^|]*) \| (\d+) \|", re.M)


def files_of(cell: str) -> Iterator[str]:
    """The files that the first cell of a row names."""
    for folder, names in re.findall(r"([a-z_]+(?:/\w+)+): ([\w ]+)", cell):
        for name in names.split():
            yield f"{folder}/{name}.{'antt' if '/specs' in folder else 'rt'}"


def lines_of(cell: str, counts: dict[str, tuple[int, int]]) -> str:
    return str(sum(counts.get(file, (0, 0))[0] for file in files_of(cell)))


def compare(page: str, counts: dict[str, tuple[int, int]]) -> Iterator[str]:
    """What the page's table says that is not so in the tree."""
    missing = set(counts)
    for cell, told in ROW.findall(page):
        for file in files_of(cell):
            if file not in missing:
                yield f"{file}: {'is in two rows' if file in counts else 'is not reached'}"
            missing.discard(file)
        if lines_of(cell, counts) != told:
            yield f"{cell}: {told}; the tree has {lines_of(cell, counts)}"
    for file in sorted(missing):
        yield f"{file}: {counts[file][0]} of {counts[file][1]}, is in no row"
    yield from (f"it doesn't say: {total}" for total in totals(counts) if total not in page)


def renew(page: str, counts: dict[str, tuple[int, int]]) -> str:
    """The page with the numbers of the tree."""
    page = ROW.sub(lambda row: f"| {row.group(1)} | {lines_of(row.group(1), counts)} |", page)
    for total in totals(counts):
        page = re.sub(re.sub(r"\d+", r"\\d+", total), total, page)
    return page


def totals(counts: dict[str, tuple[int, int]]) -> Iterator[str]:
    for suffix, what in (('.antt', 'definitions'), ('.rt', 'Rust')):
        some = [count for file, count in counts.items() if file.endswith(suffix)]
        yield f"{sum(n for n, _ in some)} lines of {what} in {len(some)} files"


def words() -> argparse.ArgumentParser:
    """The command line, whose help is the first comment."""
    found = argparse.ArgumentParser(description=__doc__, formatter_class=argparse.RawDescriptionHelpFormatter)
    for flag in 'renew', 'files', 'names', 'rest', 'inner', 'bare', 'kit':
        found.add_argument(f"--{flag}", action='store_true', help=argparse.SUPPRESS)
    found.add_argument('--mutate', type=int, metavar='N', help=argparse.SUPPRESS)
    found.add_argument('--seed', type=int, default=1, metavar='S', help=argparse.SUPPRESS)
    found.add_argument('--from', dest='calls', nargs='+', metavar='CALL', help=argparse.SUPPRESS)
    return found


def main() -> None:
    given = words().parse_args()
    if given.mutate:
        import mutate
        return mutate.main(given.mutate, given.seed)
    tree, page = Tree(), read(PAGE) if PAGE.is_file() else ''
    headline = listed(page)
    by_file: dict[Path, list[Node]] = {}
    counts: dict[str, tuple[int, int]] = {}
    for node in tree.reach(given.calls or headline):
        by_file.setdefault(node.file, []).append(node)
    for file, nodes in sorted(by_file.items()):
        name = str(file.relative_to(CRATES))
        counts[name] = len({at for node in nodes for at in node.lines}), read(file).count('\n')
        if given.files:
            print(f"{name}: {counts[name][0]} of {counts[name][1]}")
        if given.names:
            for node in sorted(nodes, key=lambda node: node.lines[0]):
                print(f"{name}:{node.lines[0] + 1}-{node.lines[-1] + 1} {node.name}")
    rest = {str(file.relative_to(CRATES)) for file, _ in tree.nodes if file.suffix == '.antt'} - counts.keys()
    for is_asked, names in ((given.rest, rest), (given.kit, tree.kit)):
        if is_asked:
            print('\n'.join(sorted(names)))
    print('\n'.join(totals(counts)))
    if given.calls:
        return
    calls = calls_of(tree, headline)
    believed = list(tree.reach_from(calls))
    told = sums.sums(believed + tree.models_of(believed))
    if given.inner:
        print('\n'.join(inner_lines(tree, calls)))
    if given.bare:
        print('\n'.join(sorted(bare(tree))))
    if given.renew:
        page = renew(PAGE.read_text(), counts)
        PAGE.write_text(page)
        sums.renew(told, KINDS)
    wrong = [f"docs/AUDIT.md: {line}" for line in compare(page, counts)] + list(misplaced(tree, page, counts, calls))
    wrong += list(unexcused(tree, page)) + [f"docs/AUDIT.sums: {line}" for line in sums.differences(told, KINDS)]
    for line in wrong:
        print(line, file=sys.stderr)
    sys.exit(1 if wrong else 0)


if __name__ == '__main__':
    main()
