"""Why a call of the library failed, as an exception."""

from __future__ import annotations

import ctypes as c
from typing import Any, List, Optional

from ._abi import (EMPTY, HOLDS_PAUSED, KIND, NONE, NOT_RUN, OK, REFUSED, WORK_DEPTH, WORK_MEMORY, WORK_SPENT, WORK_TRAP, About, Fault, _Ended,
                   _Handle, _lib, _name_of)

# What the library says of a handle or of bytes that are no guest, said of an object of this module.
_SAYS = {
    EMPTY: "the object is closed",
    KIND: "the object is of another kind, or in another state",
    REFUSED: "the bytes are not those of the module",
}


class Error(Exception):
    """A call failed. `status` is the library's number, such as NO_WORK."""

    def __init__(self, status: int, text: Optional[str] = None) -> None:
        super().__init__(text or _SAYS.get(status) or _name_of(_lib.wasmloop_status_text(status)) or f"status {status}")
        self.status = status

    @property
    def name(self) -> Optional[str]:
        """The status's name, such as "NO_WORK"."""
        return _name_of(_lib.wasmloop_status_name(self.status))

    def __reduce__(self) -> Any:
        return type(self), (self.status, str(self))


class OutOfRange(Error, ValueError):
    """A number is out of range; the text gives the range."""


class Refused(Error):
    """The bytes were rejected: they are not a module that this host runs. The text says why, `fault` where."""

    def __init__(self, fault: Fault, text: Optional[str]) -> None:
        super().__init__(REFUSED, text)
        self.fault = fault

    def __reduce__(self) -> Any:
        return type(self), (self.fault, str(self))


class InertImports(UserWarning):
    """An instance was created of a module that imports functions of "uv", and exports uv_main or no uv_work: in an instance they do nothing and
    return -1, but for those that read and reply in a call_bytes."""


class Stopped(Error):
    """A call did not return: it trapped, exceeded the call-depth limit or ran out of fuel. `ending` is "trap", "depth" or "spent", `trap` the
    trap's number or 0, `used` the fuel used, in units, and `line` the source line, if the module was given `debug`."""

    def __init__(self, what: str, ended: _Ended, line: str = "") -> None:
        self._what, self._ended, self.line = what, ended, line
        self.ending = _name_of(_lib.wasmloop_ending_name(c.c_uint32(ended.ending)))
        self.trap, self.used = ended.trap, ended.used
        super().__init__(OK, self._sentence())

    def _sentence(self) -> str:
        name = _name_of(_lib.wasmloop_trap_name(c.c_uint32(self.trap)))
        why = {"depth": "exceeded the call-depth limit", "spent": "ran out of fuel"}.get(str(self.ending), f"trapped: {name}")
        return f"{self._what} {why}, after {_units(self.used)}{f', at {self.line}' if self.line else ''}"

    @property
    def text(self) -> str:
        """How the call ended, as wasmloop_ended_text says it: "out of fuel, after 1,000,000 units"."""
        from ._calls import _text                       # (which needs this module)
        return str(_text("ended_text", c.c_uint32(self._ended.ending), c.c_uint32(self.trap), c.c_uint64(self.used)))

    def __reduce__(self) -> Any:
        return type(self), (self._what, self._ended, self.line)


class Late(Stopped):
    """A call passed its deadline, and was given up. `ending` is "late", `used` the fuel used, in units, `where` the backtrace as text. Its instance lives
    on, with the memory and globals that a call with exactly that much fuel leaves."""

    def __init__(self, what: str, ended: _Ended, line: str = "", where: str = "") -> None:
        self.where = where
        super().__init__(what, ended, line)
        self.ending = "late"

    def _sentence(self) -> str:
        return f"{self._what} passed its deadline, after {_units(self.used)}{f', {self.where}' if self.where else ''}"

    @property
    def text(self) -> str:
        return f"deadline passed, after {_units(self.used, ',')}"

    def __reduce__(self) -> Any:
        return type(self), (self._what, self._ended, self.line, self.where)


def _units(used: int, form: str = "d") -> str:
    return f"{used:{form}} unit{'' if used == 1 else 's'}"


def _about_of(job: _Handle) -> About:
    """What the job is about, if it is not in use."""
    about = About()
    _lib.wasmloop_job_about(c.byref(job), c.byref(about))
    return about


def _is_paused(held: _Handle) -> bool:
    """Whether a job, a call or a callback is paused."""
    kind = c.c_uint32()
    _lib.wasmloop_kind(c.byref(held), c.byref(kind))
    return kind.value >= HOLDS_PAUSED


def _unfinished(about: About) -> str:
    """Why a job that is not over has no result."""
    return "the job is paused: continue it with run_for" if about.used else "the job has not run yet"


_ENDED = {NOT_RUN: "it has not run yet", WORK_TRAP: "it trapped", WORK_DEPTH: "it exceeded the call-depth limit",
          WORK_SPENT: "it ran out of fuel", WORK_MEMORY: "an allocation failed"}


def _why(status: int, call: str, handles: List[_Handle]) -> Optional[str]:
    """Why a call failed, by the state of its handles: one sentence for each state."""
    job = next((it for it in handles if it.kind == "job" and it.at), None)
    if status == EMPTY:
        it = next((it for it in handles if not it.at), None)
        if it and it.gone:
            return it.gone
        return f"the {it.kind if it else 'object'} is in use by another thread"
    if status == KIND and handles[0].kind == "loop" and call != "write" and _is_paused(handles[0]):
        return "a callback is paused: continue it with step_for or turn_for"
    if status == KIND and job:
        about = _about_of(job)
        return _unfinished(about) if about.outcome == NOT_RUN else "the job has already run"
    if status == KIND and handles[0].kind == "loop" and call == "write":
        return "the memory of a loop can only be read"
    if status == KIND and handles[0].kind == "instance":
        return "no call is in progress" if call in ("call_run_for", "call_end") else "a call is in progress"
    if status == NONE and job:
        return f"the job has no reply: {_ENDED[_about_of(job).outcome]}"
    return None


def _failed(status: int, call: str, *handles: _Handle) -> Error:
    # (the last handle of these is the one to be filled)
    return Error(status, _why(status, call, list(handles[:1] if call in ("share", "job_new", "loop") else handles)))
