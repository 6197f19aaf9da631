"""The tree's definitions and clauses, and which of them a call's clauses reach, as tools/audit.py says."""

from __future__ import annotations

import re
import sys
from pathlib import Path
from typing import Iterable, Iterator, Optional, Sequence

from sources import TOP, first

CRATES = TOP / 'crates'
WORD = r"[A-Za-z_][\w'-]*"
NAMES = re.compile(rf"{WORD}(?:\.{WORD})*|[^\w\s]")
ANTT = re.compile(rf"^(  )?(?:(?:abbrev|unfoldable)(?: pub)?|(?:pub )?(?:record|data)) (◌.◌|{WORD})|^()(?:pub )?(?!mod )({WORD}) :")
ITEM = re.compile(rf"^(?:pub(?:\([a-z]+\))? )?(struct|enum|trait|type|const) ({WORD})")
BLOCK = re.compile(rf"^(?:pub )?(impl|trait)(?:<.*?>(?= ))? (?:(\w+)(?:<.*>)? for )?({WORD})")
DOC = r"\s*(///|#\[)"
RULE = re.compile(r" *-- Core \d")  # it names a rule of the standard, and is no line to read (tools/rules.py)
GHOST = re.compile(r"\s+ghost (\w+) = \{")
STANDING = {'view', 'invariant', 'Value'}  # of an `impl Model`
FN = re.compile(rf"^(\s*)(pub )?(?:const )?(?:extern .C. )?fn ({WORD})")


def read(file: Path) -> str:
    """The text of a file, in which a name that is a word of the language stands plain, and not as «name»."""
    return file.read_text().replace('«', '').replace('»', '')


def above(lines: list[str], at: int, comment: str) -> int:
    """Where the comment above a line begins."""
    while at and re.match(comment, lines[at - 1]):
        at -= 1
    return at


def plain(text: str, comment: str) -> str:
    return re.sub(rf'{comment}[^\n]*|"[^"\n]*"', ' ', text)


class Node:
    """A definition: the lines that it stands in, its text, and what the words of that stand for. A call is of a type, or of ''."""

    def __init__(self, file: Path, name: str, lines: Sequence[int], written: str, scope: Scope, of: Optional[str] = None) -> None:
        self.file, self.name, self.lines, self.written, self.scope, self.of = file, name, lines, written, scope, of
        self.place, self.suffix = str(file.relative_to(CRATES).with_suffix('')), file.suffix
        self.text = plain(written, '--' if self.suffix == '.antt' else '//')
        self.names: Optional[list[Node]] = None

    @property
    def words(self) -> set[str]:
        return set(NAMES.findall(self.text))

    @property
    def is_call(self) -> bool:
        return self.of is not None and not self.name.startswith('impl ')


class Scope:
    """What the words of a file, or of a part of it, stand for: a name at a path, or a path."""

    def __init__(self, file: Path, outer: Optional[Scope] = None) -> None:
        self.file, self.crate = file, file.relative_to(CRATES).parts[0]
        self.names: dict[str, tuple[str, str]] = dict(outer.names) if outer else {}
        self.aliases: dict[str, str] = dict(outer.aliases) if outer else {}

    def specs(self, line: str) -> None:
        """`use Rattle.CRATE.specs.PATH.{NAME, NAME as NAME}` or `use Rattle.CRATE.specs.PATH as NAME`"""
        path, listed, alias = first(rf"^(?:ghost )?use ([\w.]+?)(?:\.\{{(.*)\}}| as ({WORD}))?;?$", line.strip()).groups()
        if alias:
            self.aliases[alias] = path
        self.add(path, listed or '')

    def code(self, text: str) -> None:
        """`use a::b::{C, D as E};` or `use a::b::C;`"""
        for path, listed, single in re.findall(r"^use ([\w:]+?)::(?:\{([^}]*)\}|(\w+(?: as \w+)?));", text, re.M):
            self.add('rust ' + path.replace('crate', self.crate), listed or single)

    def add(self, path: str, listed: str) -> None:
        for item in filter(None, map(str.strip, listed.split(','))):
            name, _, new = item.partition(' as ')
            self.names[(new or name).strip('◌')] = path, name.strip('◌')


class Tree:
    """All definitions of the repository by file and name, and the public calls of each type."""

    def __init__(self) -> None:
        self.nodes: dict[tuple[Path, str], Node] = {}
        self.calls: dict[tuple[Path, str], list[Node]] = {}
        self.kit: set[str] = set()
        self.impls: list[tuple[str, Node]] = []
        self.types: dict[tuple[str, str], list[Path]] = {}
        self.kept: dict[int, Node] = {}
        self.models: dict[tuple[Path, str], Node] = {}
        for file in sorted(CRATES.glob('*/specs/**/*.antt')):
            self.read_specs(file)
        for file in sorted(CRATES.glob('*/src/**/*.rt')):
            self.read_code(file)
        for file, name in self.nodes:
            if file.suffix == '.rt':
                self.types.setdefault((file.relative_to(CRATES).parts[0], name), []).append(file)
        self.impls_of: dict[int, list[tuple[Optional[Node], Node]]] = {}
        for trait, node in self.impls:
            of = self.resolve(node, node.of or '')
            self.impls_of.setdefault(id(of), []).append((self.resolve(node, trait), node))

    def read_specs(self, file: Path) -> None:
        lines, scope, around = read(file).split('\n'), Scope(file), ''
        starts: list[tuple[int, str, str]] = []
        for at, line in enumerate(lines):
            found = ANTT.match(line)
            if line.startswith('use '):
                scope.specs(line)
            elif line.startswith('module '):
                around = line  # what the definitions below it, indented, are given
                starts.append((at, '', ''))
            elif found:
                name = (found.group(2) or found.group(4)).strip('◌')
                starts.append((above(lines, at, r" *--|infix"), name, around if found.group(1) else ''))
        for (begin, name, outer), (end, _, _) in zip(starts, starts[1:] + [(len(lines), '', '')]):
            if name:
                kept = [at for at in range(begin, end) if lines[at].strip() and not RULE.match(lines[at])]
                node = Node(file, name, kept, '\n'.join([outer] + [lines[at] for at in kept]), scope)
                self.nodes[file, name] = node
                if re.search(rf"\bdata {name}\b", node.text):  # a constructor's name leads to its type
                    for word in ' '.join(re.findall(rf"^\s+({WORD}(?: {WORD})*) :", node.text, re.M)).split():
                        self.nodes.setdefault((file, word), node)

    def read_code(self, file: Path) -> None:
        text = read(file)
        lines, scope, header, kind, of = text.split('\n'), Scope(file), '', '', ''
        scope.code(text)
        inside = scope
        for at, line in enumerate(lines):
            block = BLOCK.match(line)
            if block:
                item, model, of = block.groups()
                inside, header, kind, begin = Scope(file, scope), line, model or item, at
            elif line == '}':
                if header and kind not in ('impl', 'trait', 'Model', 'From'):
                    self.add_impl(file, lines, begin, at, kind, of, inside)
                elif kind == 'Model':
                    told = '\n'.join(lines[begin:at + 1])
                    self.models[file, of + ' Value'] = Node(file, f"model {of}", range(begin, at + 1), told, inside)
                inside, header, kind, of = scope, '', '', ''
            elif line.strip().startswith('ghost use '):
                inside.specs(line)
            elif kind == 'Model' and line.strip().startswith('ghost Value ='):
                self.nodes[file, of + ' Value'] = Node(file, of + ' Value', [at], line, inside)
            found = FN.match(line)
            if found and found.group(2) and kind in ('', 'impl'):
                end = self.end_of_contract(lines, at, found.group(1))
                told = '\n'.join([header] + lines[at:end + 1])
                node = Node(file, found.group(3), range(above(lines, at, DOC), end + 1), told, inside, of)
                self.calls.setdefault((file, of), []).append(node)
            if ITEM.match(line):
                end = at
                while lines[end] != '}' if '{' in line else not lines[end].endswith(';'):
                    end += 1
                self.add_item(file, lines, at, end, inside)

    @staticmethod
    def end_of_contract(lines: list[str], at: int, indent: str) -> int:
        while not re.match(rf"{indent}\{{|.*(\{{|\{{\}}|;)$", lines[at]):
            at += 1
        return at

    def add_impl(self, file: Path, lines: list[str], begin: int, end: int, trait: str, of: str, scope: Scope) -> None:
        """The clauses and the ghost items of an `impl Trait for Type`."""
        kept: list[int] = []
        for at in range(begin + 1, end):
            function, item = FN.match(lines[at]), GHOST.match(lines[at])
            if function:
                last = self.end_of_contract(lines, at, function.group(1))
                if any(re.match(r"\s+(requires|ensures)", line) for line in lines[at:last + 1]):
                    kept += range(at, last + 1)
            elif item and item.group(1) not in STANDING:
                last = at
                while not lines[last].endswith('};'):
                    last += 1
                kept += range(at, last + 1)
        if kept:
            told = '\n'.join([lines[begin]] + [lines[at] for at in kept])
            self.impls.append((trait, Node(file, f"impl {trait} for {of}", [begin] + kept, told, scope, of)))

    def add_item(self, file: Path, lines: list[str], at: int, end: int, scope: Scope) -> None:
        kind, name = first(ITEM.pattern, lines[at]).groups()
        for line in lines[at:end + 1]:
            if line.strip().startswith('ghost use '):
                scope.specs(line)
        private = r"\s+ghost use " if kind == 'trait' else r"\s+ghost "
        told = '\n'.join(line for line in lines[at:end + 1] if not re.match(private, line))
        self.nodes[file, name] = Node(file, name, range(above(lines, at, DOC), end + 1), told, scope)

    def rust_type(self, crate: str, module: str, name: str) -> Optional[Node]:
        """A Rust type of a crate: the module's that is named, or else the first of this name."""
        found = self.types.get((crate, name), [])
        for file in [file for file in found if file.stem == module] + found:
            return self.nodes.get((file, name + ' Value')) or self.nodes[file, name]
        return None

    def resolve(self, node: Node, word: str) -> Optional[Node]:
        """The definition that a word of a definition stands for, if it is one of this repository."""
        head, _, rest = word.partition('.')
        if head in node.scope.aliases:
            return self.at_path(node.scope.aliases[head], rest.split('.')[0])
        if head in node.scope.names:
            return self.at_path(*node.scope.names[head])
        if node.suffix == '.rt':
            return self.rust_type(node.scope.crate, node.file.stem, head)
        return self.nodes.get((node.file, head))

    def named_by(self, node: Node) -> list[Node]:
        """The definitions that its words stand for."""
        if node.names is None:
            node.names = list(filter(None, [self.resolve(node, word) for word in node.words]))
        return node.names

    def at_path(self, path: str, name: str) -> Optional[Node]:
        if path.startswith('rust '):
            parts = path[5:].split('::')
            return self.rust_type(parts[0], parts[-1], name)
        parts = path.split('.')
        if parts[0] != 'Rattle' or not (CRATES / parts[1]).is_dir():
            self.kit.add(f"{path}.{name}")
        elif parts[-1] == 'TheConstants':
            return self.rust_type(parts[1], '', name)
        elif parts[3] == 'declared':
            return self.rust_type(parts[1], *[part for part in parts if part != 'TheVariants'][-2:])
        elif parts[3] != 'contracts':  # that is how a value is coded, which no clause speaks of
            return self.nodes.get((CRATES.joinpath(parts[1], 'specs', *parts[3:]).with_suffix('.antt'), name))
        return None

    def of_trait(self, impl: Node, trait: Optional[Node]) -> Node:
        """An impl with its clauses, and of its ghost items those that a clause of the trait names; the others are proofs."""
        def is_named(item: str) -> bool:
            word = first(GHOST.pattern, item)[1]
            return len(re.findall(rf"\b{word}\b", trait.text)) > 1 if trait else True
        items = re.findall(r"^ +ghost .*?\};$", impl.written, re.M | re.S)
        unnamed = [item for item in items if not is_named(item)]
        if not unnamed:
            return impl
        told = impl.written
        for item in unnamed:
            told = told.replace(item, '')
        lines = [impl.lines[at] for at, line in enumerate(impl.written.split('\n')) if line in told]
        return self.kept.setdefault(id(impl), Node(impl.file, impl.name, lines, told, impl.scope, impl.of))

    def roots(self, call: str) -> list[Node]:
        """`crate::function`, `crate::module::function`, `crate::Type` (all its public calls), `crate::module::Type` (those in that module),
        `crate::Type::function`, or a crate with all calls that it exports to C"""
        crate, *path = call.split('::')
        found = [node for (file, of), nodes in self.calls.items() for node in nodes if node.scope.crate == crate
                 and (path in ([of, node.name], [of], [file.stem, of]) or not of and path in ([node.name], [file.stem, node.name])
                      or not path and 'extern' in node.text)]
        item = self.rust_type(crate, '', path[-1]) if path else None
        return found + ([item] if item else []) or sys.exit(f"audit: there is no public call {call}")

    def public_calls(self) -> Iterator[Node]:
        """The public functions of public modules, and those that a crate's root hands on."""
        for (file, of), nodes in self.calls.items():
            root = CRATES / file.relative_to(CRATES).parts[0] / 'src' / 'lib.rt'
            text = read(root) if root.is_file() else ''
            handed = ' '.join(re.findall(r"^pub use [^;]*", text, re.M))
            known = file == root or re.search(rf"^pub mod {file.stem};", text, re.M)
            yield from (node for node in nodes if known or 'extern' in node.text or re.search(rf"\b{of or node.name}\b", handed))

    def models_of(self, nodes: list[Node]) -> list[Node]:
        """What contracts see of the types among these, with their invariants."""
        reached = {(node.file, node.name) for node in nodes}
        return [node for key, node in self.models.items() if key in reached]

    def reach(self, calls: list[str]) -> list[Node]:
        """The definitions that are reached from these calls."""
        return self.reach_from([node for call in calls for node in self.roots(call)])

    def reach_from(self, nodes: Iterable[Node]) -> list[Node]:
        """The same from these definitions."""
        reached: dict[int, Node] = {}
        waiting, held = list(nodes), list[tuple[Optional[Node], Node]]()
        while waiting:
            node = waiting.pop()
            if id(node) not in reached:
                reached[id(node)] = node
                waiting += self.named_by(node)
                held += self.impls_of.get(id(node), [])
            if not waiting:  # the impls of the types that are reached, of the kit's traits and of those that are reached
                waiting = [self.of_trait(impl, trait) for trait, impl in held if not trait or id(trait) in reached]
                held = [(trait, impl) for trait, impl in held if trait and id(trait) not in reached]
        return list(reached.values())
