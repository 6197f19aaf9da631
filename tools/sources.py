"""The texts of the tree, for the tools that compare them, and the faults that these plant in them as their tests."""
from __future__ import annotations

import argparse
import re
import sys
from pathlib import Path
from typing import Callable, Iterable, NoReturn, Optional, Sequence, TypeVar

TOP = Path(__file__).resolve().parent.parent


def asked(doc: Optional[str], *flags: str, **values: str) -> argparse.Namespace:
    """What a tool is asked for: one of these flags, or an option with a value, by the value's name. Its help is its first comment."""
    words = argparse.ArgumentParser(description=doc, formatter_class=argparse.RawDescriptionHelpFormatter)
    one = words.add_mutually_exclusive_group()
    for flag in flags:
        one.add_argument(f"--{flag}", action="store_true", help=argparse.SUPPRESS)
    for name, value in values.items():
        one.add_argument(f"--{name}", metavar=value, help=argparse.SUPPRESS)
    return words.parse_args()


class Sources:
    """The texts of the tree, some of them changed."""

    def __init__(self, changed: Optional[dict[str, str]] = None) -> None:
        self.changed: dict[str, str] = changed or {}

    def text(self, name: str) -> str:
        return self.changed[name] if name in self.changed else (TOP / name).read_text(encoding="utf-8")


def first(pattern: str, text: str, flags: int = 0) -> re.Match[str]:
    """What the expression finds first, in a text that has it."""
    found = re.search(pattern, text, flags)
    if not found:
        raise LookupError(f"nothing fits {pattern}")
    return found


Texts = TypeVar("Texts", bound=Sources)


def plant(planted: Sequence[tuple[str, str, str, str]], whole: Texts, faults: Callable[[Texts], Iterable[str]]) -> int:
    """Plants each of the faults (what it is, in which file which expression becomes which text), and prints whether it is found. Returns
    how many aren't."""
    missed, before = 0, list(faults(whole))
    for what, file, old, new in planted:
        changed, count = re.subn(old, new, whole.text(file), count=1)
        found = [fault for fault in faults(type(whole)({file: changed})) if fault not in before] if count else []
        print(f"{'found' if found else 'MISSED' if count else 'NOT PLANTED'}: {what}{': ' + found[0] if found else ''}")
        missed += not found
    print(f"{len(planted)} faults planted, {missed} missed")
    return missed


def unwritten(what: str, least: int, sources: Sources, faults: Callable[[Sources], Iterable[str]], write: Callable[[Sources], None],
              is_by_hand: Callable[[str], object]) -> list[str]:
    """What differs still of texts with a row more, which at least so many places lack, once all is written that a machine can write."""
    before = len(list(faults(sources)))
    write(sources)
    left = [fault for fault in faults(Sources(sources.changed)) if not is_by_hand(fault)]
    left += [] if before >= least else ["too few places"]
    print(f"{'MISSED' if left else 'written'}: {what}, which {before} places lack{': ' + '; '.join(left) if left else ''}")
    return left


def finish(found: Sequence[str], told: str) -> NoReturn:
    """Prints each fault that was found, then what was looked at and how many faults there are. Ends with status 1 where there is one."""
    for fault in found:
        print(fault, file=sys.stderr)
    print(f"{told}, {len(found)} faults")
    sys.exit(1 if found else 0)
