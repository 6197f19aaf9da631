#!/usr/bin/env python3
"""Whether each call and clause that docs/PROOFS.md names is in the sources, each file and heading that a page links to is there, and a pull
request asks for what docs/CONTRIBUTING.md says.

    python3 tools/citations.py            status 1 where one isn't
    python3 tools/citations.py --write    lays the facts out as tables, whose calls are links to their sources, and the template of
                                          pull requests; then the same
    python3 tools/citations.py --renew    writes the facts of docs/AUDIT.sums anew

A row of the page that begins with calls, as "`crate::call` `clause`, `clause` | ..", is one fact; so is a line "- `crate::call` `clause`: ..",
which --write makes a row. A call without a clause has a clause without a name, or is a type with a fact in its type: a ghost field
of the name that the line gives, or else an invariant or a ghost field; or, by its `impl`, one of the traits that the line names. A
crate alone is all that it exports to C.

docs/AUDIT.sums has two sums of each fact: of the line, and of the clauses that it tells. Where one is another than it was, the two
are to be read beside each other again, and the sums renewed. Of each section of the page it has a sum of what is no fact.
"""
from __future__ import annotations

import re
from pathlib import Path
from typing import Iterable, Iterator, Optional

import sums
from audit import as_line
from reached import Node, Tree, read
from sources import TOP, asked, finish

FACT = re.compile(r"- ((?:`[a-z_]+::[\w:]+`|`\w+`)[^:]*(?:::[^:]+)*?):(?: |$)")
HEAD = ["Call | Says", "---|---"]
PROOFS, CHANGES, TEMPLATE = TOP / 'docs' / 'PROOFS.md', TOP / 'docs' / 'CONTRIBUTING.md', TOP / '.github' / 'pull_request_template.md'
ASKED = """What is true now, and why:

What you ran; the lines of what you did not change can go:

"""


class Clauses:
    """The clauses of the calls and types: for each its name, and its sum."""

    def __init__(self, tree: Tree) -> None:
        self.tree = tree
        self.exporting: dict[str, list[Node]] = {}
        for nodes in tree.calls.values():
            for node in nodes:
                if 'extern' in node.text:
                    self.exporting.setdefault(node.scope.crate, []).append(node)

    def of_calls(self, call: str) -> list[Node]:
        crate, *path = call.split('::')
        return [node for (file, of), nodes in self.tree.calls.items() for node in nodes if node.scope.crate == crate
                and ([of, node.name] == path or not of and path in ([node.name], [file.stem, node.name]))]

    def of_impls(self, call: str, traits: list[str]) -> list[tuple[str, str]]:
        """The impls of these traits for a type."""
        crate, name = call.split('::')
        return [(trait, sums.sum_of(node.scope, node.written, node.suffix)) for trait, node in self.tree.impls
                if node.scope.crate == crate and node.of == name and trait in traits]

    def file_of(self, call: str) -> str:
        """The file of a call, a type or a crate's exports, as the page links to it."""
        if '::' not in call:
            return f"../crates/{call}/src/lib.rt"
        crate, name = call.split('::')[0], call.split('::')[-1]
        files = [node.file for node in self.of_calls(call)] or self.tree.types.get((crate, name)) or self.tree.types.get((crate, f"{name} Value"))
        return f"../{files[0].relative_to(TOP)}" if files else ''

    def in_type(self, call: str) -> Iterator[tuple[str, str]]:
        """The ghost fields of a type, and its invariant under no name."""
        crate, name = call.split('::')
        files = self.tree.types.get((crate, name)) or [file for file in self.tree.types.get((crate, name + ' Value'), [])]
        for file in files:
            node = self.tree.nodes.get((file, name))
            lines = read(file).split('\n')
            own = '\n'.join(lines[at] for at in node.lines) if node else ''
            if node:
                for field, text in re.findall(r"^\s+(?:pub )?ghost (\w+): \{(.*)\}", own, re.M):
                    yield field, sums.sum_of(node.scope, text, '.rt')
            model = re.search(rf"^impl(?:<.*>)? Model for {name}\b.*?^\}}", read(file), re.M | re.S)
            if model and 'ghost invariant' in model.group():
                yield '', sums.sum_of(self.tree.nodes[file, name + ' Value'].scope, model.group(), '.rt')

    def told(self, line: str, head: str, call: str) -> Optional[list[tuple[str, str]]]:
        """The clauses that a line can speak of: names and sums. None where there is no such call."""
        if '::' not in call:
            return [('', sums.sum_of(node.scope, node.written, '.rt')) for node in self.exporting[call]]
        if ' by its `impl`' in line:
            return self.of_impls(call, re.findall(r"`(\w+)`", head.split(' by its `impl`')[1]))
        calls = self.of_calls(call)
        found = [(name, sums.sum_of(node.scope, text, '.rt'))
                 for node in calls for kind, name, text in sums.clauses_of(node) if kind != 'signature']
        if not calls:
            return list(self.in_type(call)) if self.tree.rust_type(call.split('::')[0], '', call.split('::')[-1]) else None
        return found


class Fact:
    """A line of the page: where it stands, what it names, what is wrong with it, and the sums of its clauses."""

    def __init__(self, clauses: Clauses, number: int, line: str, head: str, calls: list[str]) -> None:
        self.number, self.line, self.calls = number, line, calls
        self.wrong: list[str] = []
        told: list[tuple[str, str]] = []
        self.names = [] if ' by its `impl`' in line else re.findall(r"`([a-z_]\w*)`", head.split(', of `')[0])
        self.names = [name for name in self.names if name not in calls]
        by_impl = re.findall(r"`(\w+)`", head.split(' by its `impl`')[1]) if ' by its `impl`' in line else []
        for call in calls:
            known = clauses.told(line, head, call)
            if known is None:
                self.wrong.append(f"there is no call or type {call}")
                continue
            wanted = by_impl or self.names or ['']
            for name in wanted:
                found = [one for one in known if one[0] == name]
                if not found and not self.names and not by_impl and 'in its type' in line:
                    found = known  # ghost fields, each with a name that the line doesn't give
                told += found
                if not found:
                    has = ', '.join(sorted({one[0] or 'one without a name' for one in known})) or 'none'
                    self.wrong.append(f"{call} has no clause {name or 'without a name'}; it has {has}")
        links = {call: clauses.file_of(call) for call in calls}
        cell = re.sub(r"`([\w:]+)`", lambda it: f"[{it[0]}]({links[it[1]]})" if links.get(it[1]) else it[0], head)
        self.row = f"{cell} | {line[len(head) + 4:]}"
        self.key = f"fact {','.join(calls)} {','.join(self.names + by_impl) or '-'}"
        self.key += ''.join(f":{word}" for word in re.findall(r", of `(\w+)`", head))
        self.sums = f"{sums.short(line.split())} {sums.short(sum_ for _, sum_ in told)}"


def facts(clauses: Clauses) -> Iterator[Fact]:
    keys = set()
    for number, line in enumerate(map(as_line, read(PROOFS).split('\n')), 1):
        head = FACT.match(line)
        crate = re.match(r"- `(\w+)`:", line)
        if not head or crate and crate.group(1) not in clauses.exporting:
            continue
        calls = [crate.group(1)] if crate else re.findall(r"`([a-z_]+::[\w:]+)`", head.group(1))
        fact = Fact(clauses, number, line, head.group(1), calls)
        while fact.key in keys:
            fact.key += '+'
        keys.add(fact.key)
        yield fact


def laid_out(found: Iterable[Fact]) -> str:
    """The page with its facts as tables."""
    rows, lines = {fact.number: fact.row for fact in found}, read(PROOFS).split('\n')
    told: list[str] = []
    for number, line in enumerate(lines, 1):
        if line in HEAD:
            continue
        if number in rows and number - 1 not in rows:
            told += ([''] if told[-1] else []) + HEAD
        told.append(rows.get(number, line))
    return '\n'.join(told)


def changed(found: list[Fact]) -> Iterator[str]:
    """The facts whose line or clauses are others than those that were compared."""
    old, there = {key: value for key, value in sums.kept().items() if key.startswith('fact ')}, {fact.key for fact in found}
    for fact in found:
        was, now = old.get(fact.key, ' ').split(' '), fact.sums.split(' ')
        place = f"docs/PROOFS.md:{fact.number}: {', '.join(fact.calls)} {', '.join(fact.names)}"
        if fact.key not in old:
            yield f"{place}: docs/AUDIT.sums has no sums of it"
        elif was[1] != now[1]:
            yield f"{place}: its clauses are others than those that the line was compared with"
        elif was[0] != now[0]:
            yield f"{place}: the line is another than the one that was compared with its clauses"
    yield from (f"docs/AUDIT.sums: {key} is no fact of docs/PROOFS.md" for key in sorted(old.keys() - there))


def prose() -> dict[str, str]:
    """Of each section of the page the sum of its lines that are no facts."""
    sections = re.split(r"^## ", read(PROOFS), flags=re.M)
    lines = {text.split('\n')[0].strip('# '): [line for line in text.split('\n') if not FACT.match(as_line(line)) and line not in HEAD] for text in sections}
    return {f"prose {title.replace(' ', '-')}": sums.short(' '.join(kept).split()) for title, kept in lines.items()}


def pages() -> list[Path]:
    """The pages of the repository; not those that builds leave in their folders."""
    folders = ('docs', 'examples', 'bench', 'capi', 'hosts', 'tests', 'trials')
    found = [*sorted(TOP.glob('*.md')), *(page for folder in folders for page in sorted((TOP / folder).rglob('*.md')))]
    return [page for page in found if not {'out', 'target', 'node_modules'} & set(page.relative_to(TOP).parts)]


def anchors(page: Path) -> set[str]:
    """The names under which a page's headings can be linked to."""
    headings = re.findall(r"^#+ (.*)", page.read_text(), re.M)
    return {re.sub(r"[^\w\s-]", '', heading.lower()).strip().replace(' ', '-') for heading in headings}


def broken_links() -> Iterator[str]:
    """Each link of a page to a file or a heading that isn't there."""
    for page in pages():
        for link, anchor in re.findall(r"\]\(([^)#:\s]*)(?:#([^)]*))?\)", page.read_text()):
            file = page.parent / link if link else page
            if not file.exists():
                yield f"{page.relative_to(TOP)}: there is no {link}"
            elif anchor and file.suffix == '.md' and anchor not in anchors(file):
                yield f"{page.relative_to(TOP)}: {link} has no heading {anchor}"


def template() -> str:
    """The template of pull requests, of the table of changes."""
    table = read(CHANGES).split('\n## A change')[1].split('\n## ')[0]
    rows = re.findall(r"^([^|\n]+) \| ([^|\n]+) \| .*$", re.sub(r"\[([^]]*)\]\([^)]*\)", r"\1", table), re.M)
    return ASKED + ''.join(f"- [ ] {changed}: {run}\n" for changed, run in rows[1:])


def main() -> None:
    given, found = asked(__doc__, 'renew', 'write'), list(facts(Clauses(Tree())))
    if given.renew:
        sums.renew({fact.key: fact.sums for fact in found} | prose(), ['fact', 'prose'])
    if given.write:
        PROOFS.write_text(laid_out(found))
        TEMPLATE.write_text(template())
        found = list(facts(Clauses(Tree())))
    faults = [f"docs/PROOFS.md:{fact.number}: {text}" for fact in found for text in fact.wrong]
    faults += ["docs/PROOFS.md: its facts are not laid out (--write)"] * (read(PROOFS) != laid_out(found))
    faults += [f"{TEMPLATE.relative_to(TOP)}: is not the table of docs/CONTRIBUTING.md (--write)"] * (read(TEMPLATE) != template())
    faults += [*changed(found), *(f"docs/AUDIT.sums: {line}" for line in sums.differences(prose(), ['prose'])), *broken_links()]
    finish(faults, f"{len(found)} facts")


if __name__ == '__main__':
    main()
