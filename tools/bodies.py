#!/usr/bin/env python3
"""Puts the wrong bodies of tests/bodies into copies of the tree, and says which test meets each. Nothing is proved.

    python3 tools/bodies.py                   all of them; status 1 if one is not met by the test that it names
    python3 tools/bodies.py NAME ..           these
    python3 tools/bodies.py --once [NAME ..]  all of a crate of tests in one run: what passes here is not met, for sure; what fails may
                                              fail by another body of the run
    python3 tools/bodies.py --list            which would be run together
    python3 tools/bodies.py --check           runs nothing: whether each can be put into the tree and names a test or a row that is there,
                                              and whether tests/bodies/README.md's table names each, and no edit that isn't there

tests/bodies/NAME.edit is one wrong body:

    says: what is wrong, as tests/bodies/README.md says it
    met: CRATE TEST             the test that must fail, as `test_modules runs::bodies_end_as_they_must`; of test_program, how the
                                command begins whose row must differ; `wasmloop run`, the program on its stored arguments
    alone                       (if it is so) it breaks too much to stand beside others
    hangs                       (if it is so) the test doesn't fail, but reaches no end within its time limit
    file: CRATE/src/FILE.rt     then lines `old: TEXT` and `new: TEXT`, as in must-fail edits: each TEXT is one line, and `old` stands in
                                the file once

Runs cost more than tests, so bodies of one crate of tests share runs: of k runs each body stands in half, no two in the same ones.
A test meets a body if it fails in each run with it, and in no other: a test that fails by another body alone fails in a run
without this one too. Of a body that stands alone in a run, a test meets it that fails there and passes in another run, if need be
one without any body. A test that reaches its time limit is told as such, and meets a body that hangs alone: on a busy machine any
test may. Bodies that name one test, or that edit one text, are not put together. What is undecided is run alone.
"""
from __future__ import annotations

import argparse
import re
import shutil
import subprocess
import sys
import tempfile
import time
from itertools import combinations
from pathlib import Path
from typing import Iterable, Iterator, Optional, Sequence

from sources import TOP

BODIES = TOP / 'tests' / 'bodies'
LONGEST = 1500  # seconds of one run
NO_END = ' (no end within its time limit)'
Outcome = Optional[tuple[list[str], list[str]]]          # the tests that failed and those that passed, if the run came to an end


class Body:
    """One wrong body: its changes, and the test that is to meet it."""

    def __init__(self, file: Path) -> None:
        self.name, self.says, self.alone, self.hangs, at, old = file.stem, '', False, False, '', ''
        self.changes: list[tuple[str, str, str]] = []
        for line in filter(str.strip, file.read_text().split('\n')):
            word, _, rest = line.partition(': ')
            if word == 'says':
                self.says = rest
            elif word == 'met':
                self.crate, _, self.test = rest.partition(' ')
            elif word == 'file':
                at = rest
            elif word == 'old':
                old = rest
            elif word == 'new':
                self.changes.append((at, old, rest))
            elif line in ('alone', 'hangs'):
                setattr(self, line, True)
            else:
                sys.exit(f"bodies: {file.name}: {line}")

    def put_into(self, texts: dict[str, str]) -> Optional[dict[str, str]]:
        """The texts of the files with this body, or None where it can't be put there."""
        changed = dict(texts)
        for file, old, new in self.changes:
            text = changed.get(file) or (TOP / 'crates' / file).read_text()
            if text.count(old) != 1:
                return None
            changed[file] = text.replace(old, new)
        return changed


def groups(bodies: Iterable[Body]) -> list[list[Body]]:
    """Bodies that can stand in one tree, each naming a test of its own."""
    found: list[list[Body]] = []
    for body in bodies:
        if body.put_into({}) is None:
            sys.exit(f"bodies: {body.name} can't be put into the tree")
        for group in found:
            if body.alone or group[0].alone or body.test in [one.test for one in group]:
                continue
            if together(group + [body]) is not None:
                group.append(body)
                break
        else:
            found.append([body])
    return found


def together(bodies: Iterable[Body]) -> Optional[dict[str, str]]:
    """The texts of the files with all of these bodies, or None if they can't stand together."""
    texts: Optional[dict[str, str]] = {}
    for body in bodies:
        texts = None if texts is None else body.put_into(texts)
    return texts


def marks(count: int) -> tuple[int, list[set[int]]]:
    """For each of so many bodies the runs in which it stands: of as few runs as serve, half, and no two the same."""
    runs = 1
    while len(list(combinations(range(runs), max(runs // 2, 1)))) < count:
        runs += 1
    return runs, [set(one) for one in list(combinations(range(runs), max(runs // 2, 1)))[:count]]


class Room:
    """A copy of the tree, in which one crate of tests is run at a time."""

    def __init__(self, folder: str) -> None:
        self.top = Path(folder) / 'tree'
        self.passed: dict[str, set[str]] = {}
        shutil.copytree(TOP / 'crates', self.top / 'crates', ignore=shutil.ignore_patterns('out', 'must-fail', 'wrong'))
        for file in ('crates.txt', 'HANDLES'):
            shutil.copy(TOP / file, self.top)

    def run(self, crate: str, bodies: Sequence[Body]) -> Optional[list[str]]:
        """Which tests fail with these bodies; None where the run came to no end."""
        texts, began = together(bodies) or {}, time.time()
        for file, text in texts.items():
            (self.top / 'crates' / file).write_text(text)
        try:
            found = self.outcome(crate)
        finally:
            for file in texts:
                shutil.copy(TOP / 'crates' / file, self.top / 'crates' / file)
        told = 'no end' if found is None else f"{len(found[0])} of {len(found[0]) + len(found[1])} fail"
        names = ' '.join(body.name for body in bodies) or 'none'
        print(f"  {crate} with {names}: {told}, {time.time() - began:.0f} s", flush=True)
        self.passed.setdefault(crate, set()).update(found[1] if found else [])
        return found[0] if found else None

    def by_these(self, crate: str, failed: Sequence[str]) -> list[str]:
        """Those of the tests that failed that pass in another run."""
        if not self.passed.get(crate, set()).issuperset(test.removesuffix(NO_END) for test in failed):
            self.run(crate, [])
        return [test for test in failed if test.removesuffix(NO_END) in self.passed[crate]]

    def outcome(self, crate: str) -> Outcome:
        """The tests of a crate that fail, and those that pass; None where the run came to no end."""
        folder = self.top / 'crates' / crate
        if crate == 'test_program':
            return rows_that_differ(self.told(folder, [], (folder / 'stdin').read_text()), (folder / 'stdout').read_text())
        if not crate.startswith('test_'):
            return program_that_differs(folder, self)
        told = self.told(folder, ['--test']).stdout
        failed = [name + (NO_END if end else '') for name, end in re.findall(r"^test (\S+) \.\.\. FAILED(\n    checked: no-answer)?", told, re.M)]
        passed = re.findall(r"^test (\S+) \.\.\. ok$", told, re.M)
        return (failed, passed) if re.search(r"^test result: ", told, re.M) else self.keep(told)

    @staticmethod
    def told(folder: Path, words: Sequence[str], given: str = '') -> subprocess.CompletedProcess[str]:
        return subprocess.run(['timeout', '--foreground', str(LONGEST), 'rt', 'try', *words], cwd=folder, input=given, capture_output=True, text=True)

    @staticmethod
    def keep(told: str) -> None:
        print('    ' + '\n    '.join(told.strip().split('\n')[-6:]), flush=True)


def rows(text: str) -> dict[tuple[str, int], list[str]]:
    """Each command of a list with what it printed and its status, by the command and how often it stood there before."""
    found: dict[tuple[str, int], list[str]] = {}
    at = None
    for line in text.split('\n'):
        if line.startswith('$ '):
            at = next((line[2:], n) for n in range(10000) if (line[2:], n) not in found)
            found[at] = []
        elif at:
            found[at].append(line)
            at = None if line.startswith('= ') else at
    return found


def rows_that_differ(done: subprocess.CompletedProcess[str], wanted: str) -> Outcome:
    told, right = rows(done.stdout), rows(wanted)
    if not told or 'run=ended' not in done.stderr:
        return Room.keep(done.stdout[-300:] + done.stderr)
    differ = [at[0] for at, lines in right.items() if told.get(at) != lines]
    return differ, [at[0] for at, lines in right.items() if told.get(at) == lines]


def program_that_differs(folder: Path, room: Room) -> Outcome:
    """The program on its stored arguments: whether it prints and ends as it must."""
    words = [word for file in sorted((folder / 'data').glob('*')) for word in ('--data', f"{file.name}=data/{file.name}")]
    done = room.told(folder, words + ['--', *(folder / 'args').read_text().split()])
    status = folder / 'status'
    wanted = (folder / 'stdout').read_text(), int(status.read_text()) if status.is_file() else 0
    if 'run=ended' not in done.stderr:
        return room.keep(done.stderr)
    return ([], ['run']) if (done.stdout, done.returncode) == wanted else (['run'], [])


def meets(body: Body, failed: Iterable[str]) -> list[str]:
    """Those of the tests that failed that are the one which the body names, and fail as it says."""
    wanted = body.test + (NO_END if body.hangs else '')
    return [test for test in failed if (test.startswith(body.test) if body.crate == 'test_program' else test == wanted)]


def is_there(body: Body) -> bool:
    """Whether the test, or a command that begins as it says, is there."""
    if body.crate == 'test_program':
        return any(line.startswith(f"$ {body.test}") for line in (TOP / 'crates/test_program/stdout').read_text().split('\n'))
    module, _, name = body.test.partition('::')
    file = TOP / 'crates' / body.crate / 'src' / f"{module}.rt"
    return body.test == 'run' or file.is_file() and f"#[test]\nfn {name}(" in file.read_text()


def rows_of_table() -> Iterator[tuple[str, str, list[tuple[str, str]]]]:
    """Each wrong body of the table of tests/bodies/README.md, and what it names: folders and names."""
    page = (TOP / 'tests/bodies/README.md').read_text()
    for line in re.findall(r"^\| .*\|$", page, re.M):
        says, named = (cell.strip() for cell in line[1:-1].rsplit('|', 1))
        found: list[tuple[str, str]] = []
        folder = ''
        for one, name in re.findall(r"(?:(\w+)/)?(\w+)(?=[,;]|$)", named):
            folder = one or folder
            found += [(folder, name)] if folder else []
        yield says, named, found


def faults(bodies: list[Body]) -> Iterator[str]:
    """What of the bodies and of the table is not so."""
    yield from (f"{body.name} can't be put into the tree" for body in bodies if body.put_into({}) is None)
    yield from (f"{body.name}: there is no {body.crate} {body.test}" for body in bodies if not is_there(body))
    named = set()
    for says, told, found in rows_of_table():
        edits = [one for one in found if not one[0].startswith('test_')]
        named.update(edits)
        if not edits and told != 'Edit or test' and 'clause' not in told and "can't be written" not in told and told != '':
            yield f"tests/bodies/README.md: {says}: neither an edit nor a body is named"
    there = {('bodies', body.name) for body in bodies}
    there |= {(file.parent.parent.name, file.stem) for folder in ('must-fail', 'wrong') for file in (TOP / 'crates').glob(f'*/{folder}/*.edit')}
    yield from (f"tests/bodies/README.md: {folder}/{name} is not there" for folder, name in sorted(named - there))
    yield from (f"tests/bodies/README.md: bodies/{name} is in no row" for folder, name in sorted(there - named) if folder == 'bodies')


def told_of(body: Body, failed: Sequence[str]) -> bool:
    """What is told of a body with the tests that meet it; whether the one that it names is there."""
    named = meets(body, failed)
    others = [test for test in failed if test not in named]
    if not failed:
        print(f"{body.name}: NOT MET; {body.crate} {body.test} is to meet it", flush=True)
    elif not named:
        print(f"{body.name}: met by {body.crate} {others[0]:.100}, NOT by {body.test}", flush=True)
    else:
        more = f", and {len(failed) - 1} more" if len(failed) > 1 else ''
        print(f"{body.name}: met by {body.crate} {named[0]:.100}{more}", flush=True)
    return bool(named)


def try_alone(room: Room, body: Body) -> bool:
    return told_of(body, room.by_these(body.crate, room.run(body.crate, [body]) or []))


def try_group(room: Room, group: Sequence[Body], once: bool) -> int:
    """How many of the bodies are met as they say."""
    crate = group[0].crate
    count, stand = marks(1 if once else len(group))
    stand = stand * len(group) if once else stand
    found = [room.run(crate, [body for body, at in zip(group, stand) if run in at]) for run in range(count)]
    runs = [run for run in found if run is not None]
    if len(runs) < count:
        return sum(try_alone(room, body) for body in group) if len(group) > 1 else told_of(group[0], [])
    met = 0
    for body, at in zip(group, stand):
        failed = set.intersection(*(set(runs[run]) for run in at))
        elsewhere = {test for run in range(count) if run not in at for test in runs[run]}
        if once:
            met += told_of(body, meets(body, failed))
        elif any(sum(run in other for other in stand) == 1 for run in at):
            met += told_of(body, room.by_these(crate, sorted(failed)))
        elif failed - elsewhere or not failed:
            met += told_of(body, sorted(failed - elsewhere))
        else:
            met += try_alone(room, body)
    return met


def main() -> None:
    words = argparse.ArgumentParser(description=__doc__, formatter_class=argparse.RawDescriptionHelpFormatter)
    for flag in ('--check', '--list', '--once'):
        words.add_argument(flag, action='store_true', help=argparse.SUPPRESS)
    words.add_argument('names', nargs='*', metavar='NAME', help=argparse.SUPPRESS)
    given = words.parse_args()
    once = given.once
    bodies = [Body(file) for file in sorted(BODIES.glob('*.edit')) if not given.names or file.stem in given.names]
    if given.check:
        wrong = list(faults(bodies))
        print('\n'.join(wrong) or f"{len(bodies)} wrong bodies of tests/bodies; each can be put into the tree, and is in the table of tests/bodies/README.md")
        sys.exit(1 if wrong else 0)
    by_crate: dict[str, list[Body]] = {}
    for body in bodies:
        by_crate.setdefault(body.crate, []).append(body)
    parts = [group for crate in sorted(by_crate) for group in groups(by_crate[crate])]
    if given.list:
        for group in parts:
            print(f"{group[0].crate}, {1 if once else marks(len(group))[0]} runs: {' '.join(body.name for body in group)}")
        return
    began, met = time.time(), 0
    with tempfile.TemporaryDirectory() as folder:
        room = Room(folder)
        for group in parts:
            met += try_group(room, group, once)
    print(f"{met} of {len(bodies)} wrong bodies are met as they say, {time.time() - began:.0f} s")
    sys.exit(met != len(bodies))


if __name__ == '__main__':
    main()
