"""Calls of the library: their arguments, which are checked, and what they write."""

from __future__ import annotations

import ctypes as c
import operator
import os
from typing import Any, Callable, Optional

from ._errors import Error, OutOfRange, _failed
from ._abi import NONE, OK, RANGE, Buffer, _Handle, _lib


def _call(name: str, *words: Any) -> None:
    status = getattr(_lib, f"wasmloop_{name}")(*(c.byref(it) if isinstance(it, c.Structure) else it for it in words))
    if status != OK:
        raise _failed(status, name, *(it for it in words if isinstance(it, _Handle)))


def _expected(what: str, given: object) -> TypeError:
    return TypeError(f"expected {what}, got {type(given).__name__}")


def _data(given: Buffer) -> bytes:
    """The bytes of an argument: bytes, bytearray, memoryview, an array. A str must be encoded first."""
    if isinstance(given, bytes):
        return given
    try:
        return bytes(memoryview(given))
    except TypeError:
        cure = ": encode it, as text.encode()" if isinstance(given, str) else ": pass its read()" if hasattr(given, "read") else ""
        raise TypeError(f"{_expected('bytes', given)}{cure}") from None


def _module_data(given: Buffer) -> bytes:
    """The bytes of a module, not the path of its file."""
    if isinstance(given, (str, os.PathLike)):
        raise TypeError(f"{_expected('the bytes of a module', given)}: if it is a path, pass open({os.fspath(given)!r}, 'rb').read()")
    return _data(given)


def _whole(name: str, value: int, least: int, most: int, status: int = RANGE) -> int:
    try:
        value = operator.index(value)
    except TypeError:
        raise TypeError(f"{name}: {_expected('a whole number', value)}") from None
    if not least <= value <= most:
        raise OutOfRange(status, f"{name} {value} is out of range: expected {least} to {most}")
    return value


def _fuel(name: str, value: int) -> int:
    return _whole(name, value, 0, 2**64 - 1)


def _depth(value: int) -> int:
    return _whole("depth", value, 1, 128)


def _held(kind: Any, given: Any) -> Any:
    """The handle of an argument, which must be of that class."""
    if not isinstance(given, kind):
        raise _expected(f"a {kind.__name__}", given)
    return given.handle


_NO_FUNCTION = -38                                      # what queue_work returns where uv_work or uv_after_work is not exported


# How many exports an error looks at.
_LISTED = 200


def shown(name: str) -> str:
    """A name of a guest's for a line of text: a plain one as it is, and no more than 60 letters."""
    name = name if name.isprintable() and name else ascii(name)
    return name if len(name) <= 60 else f"{name[:57]}..."


def _export(name: str) -> bytes:
    """The name of an export as a C string."""
    if not isinstance(name, str):
        raise TypeError(f"name: {_expected('a str', name)}")
    if "\0" in name:
        raise Error(NONE, f"no function is exported as {name!r}")
    return name.encode(errors="surrogatepass")


def _found(status: int, kind: str, name: str, held: _Handle, others: Optional[Callable[[], str]] = None) -> None:
    """Raises Error unless the call found the "function" or "global" that is exported as `name`. If there is none, it has the status NONE, and says what
    `others` does."""
    if status == NONE:
        raise Error(NONE, f"no {kind} is exported as {name!r}{f': {others()}' if others else ''}")
    if status != OK:
        raise _failed(status, kind, held)


def _text(name: str, *words: Any) -> Optional[str]:
    """The text that a call writes; None if it returns NONE."""
    call, count = getattr(_lib, f"wasmloop_{name}"), c.c_uint64()
    status = call(*words, None, c.c_size_t(0), c.byref(count))
    if status == NONE:
        return None
    if status == OK:
        room = c.create_string_buffer(max(count.value, 1))
        status = call(*words, room, c.c_size_t(count.value), c.byref(count))
    if status != OK:
        raise Error(status)
    return room.raw[: count.value].decode(errors="replace")


def explain(data: Buffer) -> Optional[str]:
    """Why these bytes are rejected, in the words of `wasmloop check`; None if they are not."""
    data = _data(data)
    return _text("explain", data, c.c_size_t(len(data)))
