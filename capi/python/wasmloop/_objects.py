"""Objects of the library, what they have in common, and jobs."""

from __future__ import annotations

import ctypes as c
import time
from typing import Any, Callable, List, NamedTuple, Optional, Tuple, TypeVar, Union

from ._calls import _call, _data, _expected, _export, _found, _text, _whole
from ._errors import Error, Late, OutOfRange, Stopped, _failed, _unfinished
from ._abi import (DEPTH, EMPTY, KIND, MEMORY, NONE, NOT_RUN, OK, RANGE, SPENT, TRAP, WORK_DEPTH, WORK_DONE, WORK_SPENT, WORK_TRAP, About, Buffer, Place,
                   Site, _Ended, _Handle, _lib, _name_of, _Number, _Site)

_Kind = TypeVar("_Kind")


class _Held:
    """An object of the library. Released at the end of a `with` block, by close(), or when nothing refers to it."""

    _kind = "object"

    def __init__(self) -> None:
        self.handle = _Handle()
        self.handle.kind = self._kind

    def close(self) -> None:
        """Releases the object. Every later call raises Error with the status EMPTY."""
        self.handle.gone = self.handle.gone or f"the {self.handle.kind} is closed"
        _lib.wasmloop_drop(c.byref(self.handle))

    @property
    def held(self) -> int:
        """How many bytes the object has, as wasmloop_held in wasmloop.h counts them."""
        count = c.c_uint64()
        _call("held", self.handle, c.byref(count))
        return count.value

    def __enter__(self: _Kind) -> _Kind:
        return self

    def __exit__(self, *_: object) -> None:
        self.close()

    def __del__(self) -> None:
        if hasattr(self, "handle"):
            self.close()

    def _about(self) -> str:
        return ""

    def __reduce__(self) -> Any:
        raise TypeError(f"cannot pickle this {self.handle.kind}: pickle the bytes of the module, and load them at the other end")

    def __copy__(self) -> Any:
        raise TypeError(f"cannot copy this {self.handle.kind}: it has one owner; a module's share() gives a second handle")

    def __deepcopy__(self, _: Any) -> Any:
        return self.__copy__()

    def __repr__(self) -> str:
        try:
            told = self._about()
        except Error as error:
            told = "closed" if error.status == EMPTY and self.handle.gone else str(error)
        return f"<{type(self).__name__}: {told}>"


class _Runs(_Held):
    """An object whose last run may have stopped. A job or a call that is paused stands where it would have stopped with just the fuel that it
    has used."""

    _most = 128
    _source: Any = None                                 # the source lines of its module, if that was given `debug`

    def _line(self) -> str:
        """The source line where the last run stopped, as far as it is known."""
        places = self.stop_places() if self._source else []
        return str(self._source.of_place(places[0].byte)) if places else ""

    def _copied(self, call: str, status: int, room: Any, count: Any) -> List[Any]:
        if status not in (OK, NONE):
            raise _failed(status, call, self.handle)
        return list(room[: min(count.value, self._most)]) if status == OK else []

    def stop(self) -> List[Site]:
        """The backtrace of the last run, innermost first, as (function, instruction); empty if it returned. Of a job at most 17."""
        room, count = (_Site * self._most)(), c.c_uint64()
        status = _lib.wasmloop_stop(c.byref(self.handle), room, c.c_size_t(self._most), c.byref(count))
        return [(it.function, it.operation) for it in self._copied("stop", status, room, count)]

    def stop_places(self) -> List[Place]:
        """The same backtrace with function indexes that include the imports, and the byte of each instruction in the module."""
        room, count = (Place * self._most)(), c.c_uint64()
        status = _lib.wasmloop_stop_places(c.byref(self.handle), room, c.c_size_t(self._most), c.byref(count))
        return self._copied("stop_places", status, room, count)

    def stop_told(self, data: Optional[Buffer] = None) -> Optional[str]:
        """The backtrace as text; None if it returned. With source lines, if the module was given `debug`. `data` are the bytes of the module, if you
        want them compared with those that it keeps."""
        given = None if data is None else _data(data)
        try:
            told = _text("stop_told", given, c.c_size_t(len(given or b"")), c.byref(self.handle))
        except Error as error:
            raise _failed(error.status, "stop_told", self.handle) from None
        return str(self._source.told_place(told)) if self._source and told else told


class _Inspected(_Runs):
    """An object with an instance, which can be inspected between two runs, or two slices of one."""

    def __init__(self) -> None:
        super().__init__()
        self.memory = Memory(self)

    def value(self, name: str) -> int:
        """The signed value of the global exported as `name`."""
        told = _Number()
        _found(_lib.wasmloop_global(c.byref(self.handle), _export(name), c.byref(told)), "global", name, self.handle)
        return _signed(told.number, 32 * told.value_type)


# The calls that run slices, made often: their types stand once.
_lib.wasmloop_job_run_for.argtypes = [c.c_void_p, c.c_uint64, c.c_void_p]
_lib.wasmloop_call_run_for.argtypes = [c.c_void_p, c.c_uint64, c.c_void_p, c.c_void_p]
_run_job, _run_call = _lib.wasmloop_job_run_for, _lib.wasmloop_call_run_for


class Memory:
    """The memory of an instance, as bytes: memory[at:at + n], memory[at:at + n] = data, len(memory). That of a loop, or of a call that is paused,
    can only be read."""

    def __init__(self, instance: _Inspected) -> None:
        self._instance = instance

    def __len__(self) -> int:
        count = c.c_uint64()
        _call("size", self._instance.handle, c.byref(count))
        return count.value

    def __repr__(self) -> str:
        return f"<Memory of {self._instance!r}>"

    def _range(self, index: slice) -> Tuple[int, int]:
        if not isinstance(index, slice) or index.step not in (None, 1):
            raise TypeError("read and write memory by slices, as memory[at:at + n]")
        size = len(self)
        start = 0 if index.start is None else _whole("start", index.start, 0, size)
        stop = size if index.stop is None else _whole("stop", index.stop, start, size)
        return start, stop - start

    def __getitem__(self, index: slice) -> bytes:
        at, count = self._range(index)
        room = (c.c_uint8 * count)()
        if count:
            _call("read", self._instance.handle, c.c_uint32(at), room, c.c_size_t(count))
        return bytes(room)

    def __setitem__(self, index: slice, data: Buffer) -> None:
        (at, count), data = self._range(index), _data(data)
        if len(data) != count:
            raise ValueError(f"expected {count} bytes, got {len(data)}")
        if count:
            _call("write", self._instance.handle, c.c_uint32(at), data, c.c_size_t(count))


def _signed(value: int, bits: int) -> int:
    return (value ^ 1 << bits - 1) - (1 << bits - 1)


def _viewed(view: Callable[[Any, Any], None]) -> bytes:
    """The bytes that a call tells the place and the number of."""
    at, count = c.c_void_p(), c.c_uint64()
    view(c.byref(at), c.byref(count))
    return c.string_at(at, count.value) if count.value else b""


# The units of fuel between two looks at the clock, about a millisecond: how far a call with a deadline may pass it.
_SLICE = 100_000


def _until(deadline: float) -> float:
    """When a deadline, so many milliseconds from now, is passed."""
    if not isinstance(deadline, (int, float)):
        raise TypeError(f"deadline: {_expected('a number of milliseconds', deadline)}")
    if not deadline >= 0:
        raise OutOfRange(RANGE, f"deadline {deadline} is out of range: expected 0 or more")
    return time.monotonic() + deadline / 1000


class Reply(NamedTuple):
    """The result of a job. `outcome` is "done", "trap", "depth" (call-depth limit exceeded), "spent" (out of fuel), "late" (deadline passed) or
    "nomemory" (allocation failed); `number` the signed result if it is "done", else the trap's number or 0; `data` the reply's bytes; `used` the fuel
    used, in units; `line` the source line where it stopped, if the module was given `debug`; `where` the backtrace of one that did not return, as
    text."""

    outcome: str
    number: int
    data: bytes
    used: int
    line: str = ""
    where: str = ""

    @property
    def value(self) -> int:
        """The signed result. Raises Stopped if uv_work did not return, Late if its deadline passed, and Error if its memory could not be allocated."""
        if self.outcome == "done":
            return self.number
        if self.outcome == "nomemory":
            raise Error(MEMORY)
        if self.outcome == "late":
            raise Late("uv_work", _Ended(ending=SPENT, used=self.used), self.line, self.where)
        endings = {"trap": TRAP, "depth": DEPTH, "spent": SPENT}
        raise Stopped("uv_work", _Ended(ending=endings[self.outcome], trap=self.number, used=self.used), self.line)


class Job(_Runs):
    """One run of a module's uv_work. Any thread may run it."""

    _kind, _most = "job", 17

    def __init__(self) -> None:
        super().__init__()
        self._over = c.c_uint32()

    def _about(self) -> str:
        about = self.about()
        return f"op {about.op}, {_outcome(about) if about.outcome or not about.used else 'paused'}"

    def about(self) -> About:
        """Its request, its outcome, and the fuel that it has used so far."""
        about = About()
        _call("job_about", self.handle, about)
        return about

    def input(self) -> bytes:
        """The input bytes."""
        size, count = self.about().bytes, c.c_uint64()
        room = c.create_string_buffer(max(size, 1))
        _call("job_input", self.handle, room, c.c_size_t(size), c.byref(count))
        return room.raw[:size]

    def _reply(self) -> bytes:
        return _viewed(lambda *to: _call("job_view", self.handle, *to))

    def run(self) -> Job:
        """Runs the job in this thread, without holding the GIL, and returns it."""
        _call("job_run", self.handle)
        return self

    def run_for(self, units: int) -> bool:
        """Runs a slice of at most `units` units of fuel, or fewer once it has copied more than 64 bytes for each. True if the job is over,
        with the result that run() gives."""
        over = self._over
        if type(units) is not int or not 0 < units < 2**64:
            units = _whole("units", units, 1, 2**64 - 1)
        status = _run_job(c.byref(self.handle), units, c.byref(over))
        if status != OK:
            raise _failed(status, "job_run_for", self.handle)
        return over.value == 1

    def run_within(self, deadline: float) -> Reply:
        """Runs the job until it is over, or so many milliseconds have passed: then the outcome is "late", and the job is paused. It looks at the clock
        after each 100,000 units of fuel, about a millisecond."""
        until = _until(deadline)
        while not self.run_for(_SLICE):
            if time.monotonic() >= until:
                return Reply("late", 0, b"", self.about().used, self._line(), self.stop_told() or "")
        return self.reply()

    def text(self) -> str:
        """How the job ended, as wasmloop_outcome_text says it: "out of fuel, after 1,000,000 units"."""
        about = self.about()
        return str(_text("outcome_text", c.c_uint32(about.outcome), c.c_uint32(about.value), c.c_uint64(about.used)))

    def reply(self) -> Reply:
        """The result, once the job has run."""
        about = self.about()
        if about.outcome == NOT_RUN:
            raise Error(KIND, _unfinished(about))
        data = self._reply() if about.outcome == WORK_DONE else b""
        where = (self._line(), self.stop_told() or "") if about.outcome in (WORK_TRAP, WORK_DEPTH, WORK_SPENT) else ("", "")
        return Reply(_outcome(about), c.c_int32(about.value).value, data, about.used, *where)

    def reply_into(self, room: Union[bytearray, memoryview]) -> int:
        """Copies as much of the reply as fits into a writable buffer, and returns the length of the whole reply."""
        with memoryview(room) as view:
            if view.readonly:
                raise _expected("a writable buffer", room)
            count, into = c.c_uint64(), (c.c_char * view.nbytes).from_buffer(view)
            try:
                _call("job_reply", self.handle, into, c.c_size_t(view.nbytes), c.byref(count))
            finally:
                del into
        return count.value


def _outcome(about: About) -> str:
    return str(_name_of(_lib.wasmloop_outcome_name(c.c_uint32(about.outcome))))
