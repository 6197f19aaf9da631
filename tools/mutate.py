"""`tools/audit.py --mutate N [--seed S]`: makes N small changes of believed lines, each in a copy, and says how many are noticed there.

A believed line is one of a public call's contract, of a definition that one reaches, or an import that these use. A change is a
name, an operator or a number for another, a conjunct or a field left out, a premise made false, or another import under a name. It
is noticed if `tools/audit.py` ends with 1 in the copy and names a sum.
"""
from __future__ import annotations

import random
import re
import shutil
import subprocess
import sys
import tempfile
from pathlib import Path
from typing import Iterator, Sequence

import audit
import reached
import sums
from sources import TOP

OTHERS = dict(pair.split() for pair in ('≡ ≢', '≢ ≡', '≤ <', '< ≤', '× ⊎', '⊎ ×', '+ *', '- +', '* +', '== ≤', '∷ ++', '++ ∷'))
UNREAD = re.compile(r"\s*(--|//|#\[|ghost |pub mod |use |module |infix|\}|\{|$)")


def believed(tree: reached.Tree) -> Iterator[tuple[Path, int, tuple[str, ...]]]:
    """The lines that are believed: of each its file, its number, and names that it may use."""
    read: dict[Path, list[str]] = {}
    for node in tree.reach_from(audit.calls_of(tree, audit.listed(reached.read(audit.PAGE)))):
        if node.is_call and len(sums.clauses_of(node)) == 1:
            continue
        lines, words = read.setdefault(node.file, node.file.read_text().split('\n')), node.words
        yield from ((node.file, at, tuple(sorted(node.scope.names))) for at in node.lines if not UNREAD.match(lines[at]))
        for at, line in enumerate(lines):
            if line.startswith(('use ', 'ghost use ')) and '{' in line and ' as ' not in line:
                used = [name for name in re.findall(r"[\w'-]+", line.partition('{')[2]) if name in words]
                yield from [(node.file, at, tuple(sorted(used)))] if used else []


def changes(line: str, names: Sequence[str]) -> Iterator[tuple[str, str]]:
    """The changes that a line admits: what each is called, and the line with it."""
    told = re.sub(r"(--|//).*", lambda found: ' ' * len(found.group()), line)
    if re.match(r"(ghost )?use ", line):
        for name in names:
            for found in re.finditer(rf"(?<=[{{ ]){re.escape(name)}(?=[,}}])", line):
                other = next((one for one in re.findall(r"(?<=[{ ])[\w'-]+(?=[,}])", line) if one != name), None)
                if other:
                    yield 'import', f"{line[:found.start()]}{other} as {name}{line[found.end():]}"
        return
    for found in re.finditer(r"(?<![\w.'])([^\W\d][\w'-]*)(?![\w'])", told):
        other = next((name for name in names if name != found.group() and '◌' not in name), None)
        if found.group() in names and other:
            yield 'name', line[:found.start()] + other + line[found.end():]
    for found in re.finditer(r" (≡|≢|≤|<|×|⊎|\+|-|\*|==|∷|\+\+) ", told):
        yield 'operator', line[:found.start(1)] + OTHERS[found.group(1)] + line[found.end(1):]
    for found in re.finditer(r"(?<![\w.'])\d+(?![\w'])", told):
        yield 'number', line[:found.start()] + str(int(found.group()) + 1) + line[found.end():]
    for found in re.finditer(r" × [^×⊎→(){}]+(?= ×|$|\)| \})", told):
        yield 'conjunct', line[:found.start()] + line[found.end():]
    if re.match(r"  pub \w+ : ", told):
        yield 'field', '  -- a field was here'
    for found in re.finditer(r"(?:requires|ensures)(?: \w+)? \{ |^  pub \w+ : (?=[A-Z(])", told):
        yield 'premise', line[:found.end()] + '⊥ → ' + line[found.end():]


def noticed(top: Path) -> list[str]:
    done = subprocess.run([sys.executable, 'tools/audit.py'], cwd=top, capture_output=True, text=True)
    return re.findall(r"^docs/AUDIT.sums: \w+ (.*)", done.stderr, re.M) if done.returncode == 1 else []


def main(count: int, seed: int) -> None:
    chance, found, made = random.Random(seed), 0, 0
    lines = sorted(set(believed(reached.Tree())))
    with tempfile.TemporaryDirectory() as folder:
        top = Path(folder)
        for part in ('crates', 'docs', 'tools'):
            shutil.copytree(TOP / part, top / part, ignore=shutil.ignore_patterns('out', 'target', 'proofs'))
        kinds = 'name', 'operator', 'number', 'conjunct', 'field', 'premise', 'import'
        while made < count:
            kind = kinds[made % len(kinds)]  # each kind in turn
            file, at, names = chance.choice(lines)
            text = file.read_text().split('\n')
            able = [line for what, line in changes(text[at], names) if what == kind]
            if not able:
                continue
            line, copy = chance.choice(able), top / file.relative_to(TOP)
            copy.write_text('\n'.join(text[:at] + [line] + text[at + 1:]))
            seen = noticed(top)
            shutil.copy(file, copy)
            made, found = made + 1, found + bool(seen)
            print(f"{kind}: {file.relative_to(reached.CRATES)}:{at + 1} {line.strip()}", flush=True)
            print(f"    {seen[0]}{f' and {len(seen) - 1} more' if len(seen) > 1 else ''}" if seen else '    NOT NOTICED', flush=True)
    print(f"{found} of {count} changes were noticed")
    sys.exit(found != count)
