"""Modules, their instances, and calls of these."""

from __future__ import annotations

import ctypes as c
import importlib
import os
import sys
import time
import warnings
from typing import Any, Dict, List, NamedTuple, Optional, Tuple, Union

from ._calls import _LISTED, _call, _data, _depth, _export, _found, _fuel, _held, _module_data, _text, _whole, explain, shown
from ._errors import Error, InertImports, Late, Refused, Stopped, _failed
from ._abi import (ARGUMENTS, KIND, NONE, NOT_STARTED, OK, REFUSED, Buffer, Export, Fault, Shape, _CallLimits, _Ended, _lib, _Listed, _Signature, _Task)
from ._objects import _SLICE, Job, Reply, _Held, _Inspected, _run_call, _signed, _until, _viewed


def _contents(file: str) -> bytes:
    with open(file, "rb") as it:
        return it.read()


def _lines() -> Any:
    """The tool for source lines: a host that wants none loads none."""
    return importlib.import_module(".lines", __package__)


class Module(_Held):
    """A module, loaded from its bytes. Raises Refused if they are not a module that this host runs. `debug` are the bytes of the module with
    DWARF that it was made from: then what stops tells its source line, by llvm-symbolizer, as wasmloop.lines does."""

    _kind = "module"
    _source: Any = None

    def __init__(self, data: Buffer, debug: Optional[Buffer] = None) -> None:
        super().__init__()
        fault, data, room, count = Fault(), _module_data(data), c.create_string_buffer(1024), c.c_uint64()
        status = _lib.wasmloop_load_told(data, c.c_size_t(len(data)), c.byref(self.handle), c.byref(fault), room, c.c_size_t(1024), c.byref(count))
        if status == REFUSED:
            raise Refused(fault, explain(data) if count.value > 1024 else room.raw[: count.value].decode(errors="replace"))
        if status != OK:
            raise Error(status)
        if debug is not None:
            self._source = _lines().of_debug(data, _module_data(debug))

    @classmethod
    def open(cls, file: str) -> Module:
        """The module in a file, NAME.wasm. If NAME.debug.wasm lies beside it, as wasmloop.cc writes it, and llvm-symbolizer is there, that is its
        `debug`."""
        beside = os.path.splitext(file)[0] + ".debug.wasm"
        return cls(_contents(file), _contents(beside) if os.path.isfile(beside) and _lines().is_possible() else None)

    def _about(self) -> str:
        shape = self.shape()
        exports = [f"uv_{it}" for it in ("main", "work", "after_work") if getattr(shape, it)]
        return f"{', '.join(exports) or 'no uv exports'}, {shape.imports} imports, {shape.pages} pages"

    def share(self) -> Module:
        """A second handle to the same module, reference-counted. Close each on its own."""
        other = Module.__new__(Module)
        _Held.__init__(other)
        _call("share", self.handle, other.handle)
        other._source = self._source
        return other

    def shape(self) -> Shape:
        """What the module has that a host looks for."""
        shape = Shape()
        _call("shape_of", self.handle, shape)
        return shape

    @property
    def warnings(self) -> List[str]:
        """What the module lacks to run on a loop, in the words of `wasmloop check`."""
        told: List[str] = []
        while text := _text("warning", c.byref(self.handle), c.c_uint32(len(told))):
            told.append(text)
        return told

    def function(self, name: str) -> Tuple[List[int], List[int]]:
        """The parameter and result types of the function exported as `name`, each as 32 or 64 bits."""
        told = _Signature()
        _found(_lib.wasmloop_function(c.byref(self.handle), _export(name), c.byref(told)), "function", name, self.handle, self._functions)
        return _types(told)

    def _export_at(self, number: int) -> Optional[Export]:
        name, listed, told = b"", _Listed(), _Signature()
        for _ in range(2):
            room = c.create_string_buffer(max(1, listed.length))
            status = _lib.wasmloop_export_at(c.byref(self.handle), c.c_uint64(number), room, c.c_size_t(listed.length), c.byref(listed), c.byref(told))
            if status == NONE:
                return None
            if status != OK:
                raise _failed(status, "export_at", self.handle)
            name = room.raw[: listed.length]
        return name.decode(), ("function", "table", "memory", "global")[listed.kind], None if listed.kind else _types(told)

    def _first_exports(self, most: int) -> List[Export]:
        found: List[Export] = []
        while len(found) < most and (export := self._export_at(len(found))):
            found.append(export)
        return found

    @property
    def exports(self) -> List[Export]:
        """The exports in the module's order: the name, "function", "table", "memory" or "global", and a function's type, as `function` returns it."""
        return self._first_exports(2**63)

    def _functions(self) -> str:
        """Which functions there are, for a sentence: some of the first, since a module may have very many."""
        names = [shown(name) for name, kind, _ in self._first_exports(_LISTED) if kind == "function"]
        return f"the module exports {', '.join(names[:20])}{', ..' if len(names) > 20 else ''}" if names else "the module exports no function"

    def instance(self, fuel: int = 1_000_000, depth: int = 64) -> Instance:
        """A new instance, which keeps its memory from call to call."""
        return Instance(self, fuel, depth)

    def job(self, op: int, data: Buffer = b"", fuel: int = 1_000_000, depth: int = 64) -> Job:
        """A job that runs uv_work with `op`, from -2^31 to 2^32 - 1, and at most 65,536 input bytes."""
        job, data = Job(), _data(data)
        _whole("length", len(data), 0, 65_536)
        task = _Task(_fuel("fuel", fuel), _whole("op", op, -(2**31), 2**32 - 1) % 2**32, _depth(depth))
        _call("job_new", self.handle, task, data, c.c_size_t(len(data)), job.handle)
        job._source = self._source
        return job

    def work(self, op: int, data: Buffer = b"", fuel: int = 1_000_000, depth: int = 64, deadline: Optional[float] = None) -> Reply:
        """Runs the module's uv_work once, without holding the GIL. If it did not return, the reply's `outcome` says how, and its `value` raises
        Stopped. With a `deadline` it takes at most so many milliseconds, as Job.run_within says."""
        with self.job(op, data, fuel, depth) as job:
            return job.run().reply() if deadline is None else job.run_within(deadline)


class _Exported(NamedTuple):
    """An exported function: its number among the exports, and the bits of its parameters and results."""
    number: c.c_uint64
    params: List[int]
    results: List[int]


class Instance(_Inspected):
    """An instance of a module. It keeps its memory and globals from call to call. Calls to "uv" imports return -1, but for those that read
    and reply in a call_bytes, and the warning InertImports says so: an instance has no timers and no work requests. One thread at a time."""

    _kind = "instance"

    def __init__(self, module: Module, fuel: int = 1_000_000, depth: int = 64) -> None:
        super().__init__()
        of, limits, ended = _held(Module, module), _call_limits(fuel, depth), _Ended()
        self.module, self.used, self._source = module, 0, module._source
        self._exports: Dict[str, _Exported] = {}
        status = _lib.wasmloop_instance(c.byref(of), c.byref(limits), c.byref(self.handle), c.byref(ended))
        if status == NOT_STARTED:
            raise Stopped("the start function", ended)
        if status != OK:
            raise _failed(status, "instance", of)
        self.used = ended.used
        _warn_of_imports(module)

    def _about(self) -> str:
        return f"{len(self.memory)} bytes of memory"

    def call(self, name: str, *args: int, fuel: int = 1_000_000, depth: int = 64,
             deadline: Optional[float] = None) -> Union[None, int, Tuple[int, ...]]:
        """Calls the function exported as `name`; arguments may be negative. Returns its signed results: None, one number, or a tuple. A call that
        does not return raises Stopped; it is not rolled back, and you may call the instance again. A call that takes longer than `deadline` milliseconds
        raises Late: it is given up at most 100,000 units of fuel behind, about a millisecond."""
        if deadline is not None:
            return self._call_within(name, args, fuel, depth, _until(deadline))
        numbers, limits, ended = self._words(name, args), _call_limits(fuel, depth), _Ended()
        _call("call_at", self.handle, self._exported(name).number, numbers, c.c_size_t(len(args)), limits, ended)
        return self._results(name, ended)

    def begin(self, name: str, *args: int, fuel: int = 1_000_000, depth: int = 64) -> Call:
        """Begins a call to be run in slices; nothing runs yet. Until it is over, the instance can only be inspected and closed."""
        numbers, limits = self._words(name, args), _call_limits(fuel, depth)
        _call("call_begin", self.handle, _export(name), numbers, c.c_size_t(len(args)), limits)
        return Call(self, name)

    def call_for(self, name: str, *args: int, units: int, fuel: int = 1_000_000, depth: int = 64) -> Call:
        """Begins a call and runs its first slice, of at most `units` units of fuel. If it is over, result() returns what Instance.call returns;
        else continue it with run_for, or stop it."""
        numbers, limits, over, ended = self._words(name, args), _call_limits(fuel, depth), c.c_uint32(), _Ended()
        _call("call_for", self.handle, self._exported(name).number, numbers, c.c_size_t(len(args)), limits,
              c.c_uint64(_whole("units", units, 1, 2**64 - 1)), c.byref(over), ended)
        return Call(self, name, ended if over.value else None)

    def call_bytes(self, name: str, data: Buffer, *args: int, fuel: int = 1_000_000, depth: int = 64) -> Union[None, int, Tuple[int, ...]]:
        """`call` with at most 65,536 input bytes, which the guest reads by in_len and in_copy, as in a job. What it sets by out_set is the
        `reply`, however the call ends."""
        numbers, limits, ended, data = self._words(name, args), _call_limits(fuel, depth), _Ended(), _data(data)
        _whole("length", len(data), 0, 65_536)
        _call("call_bytes", self.handle, self._exported(name).number, numbers, c.c_size_t(len(args)), data, c.c_size_t(len(data)), limits, ended)
        return self._results(name, ended)

    @property
    def reply(self) -> bytes:
        """The bytes that the guest set in the last call_bytes."""
        return _viewed(lambda *to: _call("view", self.handle, *to))

    def _call_within(self, name: str, args: Tuple[int, ...], fuel: int, depth: int, until: float) -> Union[None, int, Tuple[int, ...]]:
        call = Instance.call_for(self, name, *args, units=_SLICE, fuel=fuel, depth=depth)
        try:
            while not call.over and time.monotonic() < until:
                call.run_for(_SLICE)
            is_late = not call.over
        finally:
            if not call.over:
                call.stop()                             # the instance lives on, behind an interrupt too
        if is_late:
            raise Late(name, call._whole(), self._line(), self.stop_told() or "")
        return call.result()

    def _exported(self, name: str) -> _Exported:
        """An export, which is looked up once."""
        found = self._exports.get(name)
        if found is None:
            (params, results), number = self.module.function(name), c.c_uint64()
            _call("export_number", self.module.handle, _export(name), c.byref(number))
            found = self._exports[name] = _Exported(number, params, results)
        return found

    def _words(self, name: str, args: Tuple[int, ...]) -> Any:
        """The arguments of a call as a C array."""
        kinds = self._exported(name).params
        if len(args) != len(kinds):
            raise TypeError(f"{name} takes {len(kinds)} argument{'' if len(kinds) == 1 else 's'}, got {len(args)}")
        return (c.c_uint64 * len(args))(*(_number(number + 1, it, bits) for number, (it, bits) in enumerate(zip(args, kinds))))

    def _results(self, name: str, ended: _Ended) -> Union[None, int, Tuple[int, ...]]:
        self.used = ended.used
        if ended.ending:
            raise Stopped(name, ended, self._line())
        told = tuple(_signed(it, bits) for it, bits in zip(ended.result[: ended.results], self._exported(name).results))
        return told[0] if len(told) == 1 else told or None


class Call:
    """A call that Instance.begin began, to be run in slices."""

    def __init__(self, instance: Instance, name: str, ended: Optional[_Ended] = None) -> None:
        self._instance, self._name, self._ended = instance, name, ended
        self._over, self._room = c.c_uint32(), _Ended()

    @property
    def over(self) -> bool:
        """Whether the call is over."""
        return self._ended is not None

    def run_for(self, units: int) -> bool:
        """Runs a slice of at most `units` units of fuel. True if the call is over, with the result that Instance.call gives."""
        if self._ended is not None:
            raise Error(KIND, "the call is over")
        over, ended, handle = self._over, self._room, self._instance.handle
        if type(units) is not int or not 0 < units < 2**64:
            units = _whole("units", units, 1, 2**64 - 1)
        status = _run_call(c.byref(handle), units, c.byref(over), c.byref(ended))
        if status != OK:
            raise _failed(status, "call_run_for", handle)
        if over.value:
            self._ended = ended
        return over.value == 1

    def stop(self) -> int:
        """Ends the call before it is over, and returns the fuel that it has used. The instance keeps its memory and globals, as a call with
        exactly that much fuel leaves them, and may be called again; result then raises Stopped."""
        if self._ended is not None:
            raise Error(KIND, "the call is over")
        ended = _Ended()
        _call("call_end", self._instance.handle, ended)
        self._ended, self._instance.used = ended, ended.used
        return int(ended.used)

    def _whole(self) -> _Ended:
        """How the call ended."""
        if self._ended is None:
            raise Error(KIND, "the call is not over yet")
        return self._ended

    def result(self) -> Union[None, int, Tuple[int, ...]]:
        """What Instance.call returns or raises, once the call is over."""
        return self._instance._results(self._name, self._whole())


def _types(told: _Signature) -> Tuple[List[int], List[int]]:
    """The bits of each parameter, and of each result."""
    return [32 * it for it in told.param[: told.params]], [32 * it for it in told.result[: told.results]]


def _level_outside() -> int:
    """The stack level, for a warning, of the first caller outside this package."""
    level = 1
    while sys._getframe(level).f_back and sys._getframe(level).f_globals.get("__package__") == __package__:
        level += 1
    return level


def _warn_of_imports(module: Module) -> None:
    shape = module.shape()
    count = shape.imports
    if count and (shape.main or not shape.work):        # (those of a module with jobs and with exports of its own may be its jobs')
        functions = "1 function" if count == 1 else f"{count} functions"
        warnings.warn(f'the module imports {functions} of "uv", which return -1 in an instance: use call_bytes for in_copy and out_set, '
                      "a Loop for timers and queued work, a Job for uv_work", InertImports, _level_outside())


def _call_limits(fuel: int, depth: int) -> _CallLimits:
    return _CallLimits(_fuel("fuel", fuel), _depth(depth), 0)


def _number(place: int, value: int, bits: int) -> int:
    """An argument as its bits."""
    return _whole(f"argument {place} (i{bits})", value, -(1 << bits - 1), (1 << bits) - 1, ARGUMENTS) & (1 << bits) - 1
