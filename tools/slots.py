"""How many checks may run at a time, over several processes: as many as a folder has files. A check locks one of them."""

from __future__ import annotations

import contextlib
import fcntl
import os
import time
from typing import Callable, Iterator, Optional

# How long a check waits between two looks whether a file is free, in seconds.
LOOK = 0.5


def add(folder: str, count: int) -> None:
    """Lets so many checks more run at a time."""
    first = len(os.listdir(folder))
    for number in range(first, first + count):
        with open(f"{folder}/{number}", "w", encoding="utf-8"):
            pass


@contextlib.contextmanager
def taken(folder: Optional[str], is_over: Callable[[], bool] = lambda: False) -> Iterator[None]:
    """Waits until a file of the folder is free, or all is over, and has it as long as the check runs. Without a folder any check may run."""
    while folder and not is_over():
        for name in os.listdir(folder):
            with open(f"{folder}/{name}", encoding="utf-8") as file:
                try:
                    fcntl.flock(file, fcntl.LOCK_EX | fcntl.LOCK_NB)
                except BlockingIOError:
                    continue
                yield
                return
        time.sleep(LOOK)
    yield
