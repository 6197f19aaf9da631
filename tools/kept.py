"""What earlier runs on this machine came to, by a sum of all that it rests on: in ~/.cache/wasmloop, outside each checkout."""

from __future__ import annotations

import hashlib
import os
import shutil
import tempfile
from typing import Mapping

# How many entries stay: those that were used last.
MOST = 5


def folder(name: str) -> str:
    return f"{os.environ.get('XDG_CACHE_HOME') or os.path.expanduser('~/.cache')}/wasmloop/{name}"


def sum_in(file: str) -> str:
    with open(file, "rb") as it:
        return hashlib.sha256(it.read()).hexdigest()


class KeptFiles:
    """Files that a run made. An entry that is not whole counts for nothing; it is written apart, and then renamed."""

    def __init__(self, name: str) -> None:
        self.at = folder(name)

    @staticmethod
    def sums(files: Mapping[str, str]) -> str:
        return "".join(f"{sum_in(file)}  {name}\n" for name, file in files.items())

    def give(self, rests_on: str, to: Mapping[str, str]) -> bool:
        """Puts the files of these names where they are wanted, and returns whether they are there."""
        place = f"{self.at}/{rests_on}"
        try:
            with open(f"{place}/sums", encoding="utf-8") as it:
                if it.read() != self.sums({name: f"{place}/{name}" for name in to}):
                    return False
            for name, file in to.items():
                shutil.copyfile(f"{place}/{name}", file)
            os.utime(place)
        except OSError:
            return False
        return True

    def keep(self, rests_on: str, files: Mapping[str, str]) -> None:
        os.makedirs(self.at, mode=0o700, exist_ok=True)
        room = tempfile.mkdtemp(dir=self.at)
        for name, file in files.items():
            shutil.copyfile(file, f"{room}/{name}")
        with open(f"{room}/sums", "w", encoding="utf-8") as it:
            it.write(self.sums({name: f"{room}/{name}" for name in files}))
        shutil.rmtree(f"{self.at}/{rests_on}", ignore_errors=True)
        try:
            os.rename(room, f"{self.at}/{rests_on}")
        except OSError:
            # (another run has kept the same)
            shutil.rmtree(room, ignore_errors=True)
        for old in sorted((it.path for it in os.scandir(self.at)), key=os.path.getmtime)[:-MOST]:
            shutil.rmtree(old, ignore_errors=True)
