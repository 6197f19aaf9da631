"""Compares what is counted of the engine with what a list notes."""
from __future__ import annotations

from typing import Callable, Mapping, TypeVar

T = TypeVar("T")


def compare(found: Mapping[str, T], noted: Mapping[str, T], what: str, tell: Callable[[T], str] = str,
            is_same: Callable[[T, T], bool] = lambda one, other: one == other) -> int:
    """Prints each that was found, and what was expected where that is another; returns the status."""
    others = [name for name, each in found.items() if name not in noted or not is_same(each, noted[name])]
    gone = [name for name in noted if name not in found]
    for name, each in found.items():
        expected = tell(noted[name]) if name in noted else "nothing"
        print(f"{name}: {tell(each)}" + (f", expected {expected}: is this meant?" if name in others else ""))
    for name in gone:
        print(f"there is no {name}")
    wrong = len(others) + len(gone)
    print(f"{len(found)} {what}, {wrong} not as expected" + (": FAILED, or renew by --write" if wrong else ""))
    return int(bool(wrong))
