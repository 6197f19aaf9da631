"""Reads a profile in pprof's format, for desk_test.py, by a reader of profile.proto that shares no code with the writer."""

from __future__ import annotations

import collections
import gzip
from typing import Callable, Counter, DefaultDict, Dict, List, Tuple, TypeVar

Frame = Tuple[str, str, int]
Key = TypeVar("Key")


def varint(data: bytes, at: int) -> Tuple[int, int]:
    value = shift = 0
    while True:
        value |= (data[at] & 127) << shift
        at, shift = at + 1, shift + 7
        if data[at - 1] < 128:
            return value, at


class Message:
    """The fields of a message: of each number the values that are numbers, and those that are bytes."""

    def __init__(self, data: bytes) -> None:
        self.numbers: DefaultDict[int, List[int]] = collections.defaultdict(list)
        self.parts: DefaultDict[int, List[bytes]] = collections.defaultdict(list)
        at = 0
        while at < len(data):
            key, at = varint(data, at)
            value, at = varint(data, at)
            if key & 7 == 2:
                self.parts[key >> 3].append(data[at:at + value])
                at += value
            elif key & 7:
                raise ValueError(f"wire type {key & 7}")
            else:
                self.numbers[key >> 3].append(value)


def numbers(data: bytes) -> List[int]:
    found, at = [], 0
    while at < len(data):
        value, at = varint(data, at)
        found.append(value)
    return found


class Profile:
    """Its unit, and its samples: the frames (name, file, line), the outermost first, and the value."""

    def __init__(self, data: bytes) -> None:
        top = Message(gzip.decompress(data))
        strings = [it.decode() for it in top.parts[6]]
        functions = {it.numbers[1][0]: (strings[it.numbers[2][0]], strings[it.numbers[4][0]]) for it in map(Message, top.parts[5])}
        locations: Dict[int, List[Frame]] = {}
        for it in map(Message, top.parts[4]):
            lines = [Message(line) for line in it.parts[4]]
            locations[it.numbers[1][0]] = [(*functions[line.numbers[1][0]], line.numbers[2][0]) for line in reversed(lines)]
        self.unit = [strings[Message(it).numbers[1][0]] for it in top.parts[1]]
        self.samples: List[Tuple[List[Frame], int]] = []
        for it in map(Message, top.parts[2]):
            value, = numbers(it.parts[2][0])
            self.samples.append(([frame for place in reversed(numbers(it.parts[1][0])) for frame in locations[place]], value))

    def by(self, key: Callable[[List[Frame]], Key]) -> Dict[Key, int]:
        """The sum of the samples by a key of their frames."""
        found: Counter[Key] = collections.Counter()
        for frames, value in self.samples:
            found[key(frames)] += value
        return dict(found)
