"""An instance from Python. usage: PYTHONPATH=capi/python WASMLOOP_LIBRARY=LIBRARY instance_test.py FOLDER"""

from __future__ import annotations

import sys
import warnings
from typing import Callable, Optional, Tuple, Type

import wasmloop as w
from expecting import number, of_other_type


def fails(kind: Type[BaseException], do: Callable[[], object], **has: object) -> str:
    try:
        do()
    except kind as error:
        for name, value in has.items():
            assert getattr(error, name) == value, (name, getattr(error, name), value, str(error))
        return str(error)
    raise AssertionError("nothing was raised")


folder = sys.argv[1]
data = open(f"{folder}/kv.wasm", "rb").read()
module = w.Module(data)
it = module.instance()
two = module.instance()
assert [it.call("add", k) for k in (5, 7, -20)] == [5, 12, -8]
assert two.call("add", 1) == 1
at, room = number(it, "buffer"), number(it, "room")


def put(key: bytes, value: bytes) -> object:
    it.memory[at:at + len(key) + len(value)] = key + value
    return it.call("put", len(key), len(value))


def get(key: bytes) -> Optional[bytes]:
    it.memory[at:at + len(key)] = key
    size = number(it, "get", len(key))
    return None if size < 0 else it.memory[at:at + size]


for k in range(60):
    assert put(b"key%d" % k, b"value of %d" % k) == 1
assert all(get(b"key%d" % k) == b"value of %d" % k for k in range(60)) and get(b"none") is None
assert it.call("count") == 60 and two.call("count") == 0
print(fails(w.Stopped, lambda: it.call("divide", 1, 0), ending="trap", trap=2))
assert it.stop() and "(divide), instruction " in (it.stop_told(data) or "")
assert it.call("add", 0) == 992 and not it.stop() and it.stop_told(data) is None
assert it.call("divide", -7, 2) == -3 and it.call("divide", 2**32 - 7, 2) == -3
print(fails(w.Stopped, lambda: it.call("spin", fuel=1000), ending="spent"))
print(fails(w.Stopped, lambda: it.call("deep", 200), ending="depth"))
print(fails(w.Error, lambda: it.call("absent"), status=w.NONE))
print(fails(TypeError, lambda: it.call("add")))
print(fails(w.Error, lambda: it.call("deep", 2**32), status=w.ARGUMENTS))
print(fails(w.Error, lambda: it.call("deep", -2**31 - 1), status=w.ARGUMENTS))
print(fails(TypeError, lambda: it.call("deep", of_other_type("abc"))))
print(fails(w.Error, lambda: it.call("count\0x"), status=w.NONE))
print(fails(w.Error, lambda: it.call("add", 1, fuel=-1), status=w.RANGE))
print(fails(w.Error, lambda: it.call("add", 1, depth=129), status=w.RANGE))
print(fails(w.Error, lambda: it.memory[len(it.memory):len(it.memory) + 1], status=w.RANGE))
print(fails(ValueError, lambda: it.memory.__setitem__(slice(0, 4), b"abc")))
print(fails(TypeError, lambda: it.memory[of_other_type(0)]))


def in_slices(units: int, name: str, *args: int, **limits: int) -> Tuple[object, int]:
    """How a call ends in slices of so many units, and how many pauses it makes."""
    call, pauses = two.begin(name, *args, **limits), 0
    while not call.run_for(units):
        fails(w.Error, lambda: two.call("count"), status=w.KIND)
        fails(w.Error, lambda: two.memory.__setitem__(slice(0, 1), b"x"), status=w.KIND)
        assert len(two.memory) >= 65536
        fails(w.Error, call.result, status=w.KIND)
        pauses += 1
    fails(w.Error, lambda: call.run_for(1), status=w.KIND)
    return call.result(), pauses


assert in_slices(2, "add", 9) == (10, 3), in_slices(2, "add", 0)
assert in_slices(2**64 - 1, "add", 5) == (15, 0) and two.used == 8 and two.call("add", 0) == 15
print(fails(w.Stopped, lambda: in_slices(100, "spin", fuel=1000), ending="spent", used=1000))

# a call that is stopped leaves what a call with just that fuel leaves
total = number(two, "add", 0)
call = two.begin("spin")
assert (call.run_for(70), call.stop(), two.used) == (False, 70, 70)
stopped = number(two, "add", 0)
print(fails(w.Stopped, call.result, ending="spent", used=70), fails(w.Error, call.stop, status=w.KIND))
print(fails(w.Stopped, lambda: two.call("spin", fuel=70), ending="spent", used=70))
spent = number(two, "add", 0)
assert spent - stopped == stopped - total > 0
assert two.begin("add", 9).stop() == 0 and two.call("add", 0) == spent
# a call and its first slice
call = two.call_for("add", 9, units=1)
assert (call.run_for(1000), call.result()) == (True, spent + 9) and two.call_for("add", 1, units=1000).result() == spent + 10
assert ("add", "function") in [(name, kind) for name, kind, _ in module.exports]
print(fails(w.Error, lambda: two.begin("absent"), status=w.NONE))
print(fails(w.Error, lambda: two.begin("add", 1, depth=129), status=w.RANGE))
print(fails(w.Error, lambda: in_slices(0, "add", 1), status=w.RANGE))
two.close()
before, held = len(it.memory), it.held
assert it.call("grow", 1) == before // 65536 and len(it.memory) == before + 65536
assert it.held == held + 65536 and module.held == len(data)
start = w.Module(open(f"{folder}/start.wasm", "rb").read())
with warnings.catch_warnings(record=True) as told:
    warnings.simplefilter("always")
    module.instance().close()
    assert not told
    its = start.instance()
    assert [(each.category, each.filename) for each in told] == [(w.InertImports, __file__)] and start.shape().imports == 1, told
    why = 'the module imports 1 function of "uv", which return -1 in an instance: use call_bytes for in_copy and out_set, a Loop for '
    assert str(told[0].message).startswith(why), told[0]
with its:
    assert its.call("global") == 7 and its.call("bump", 100) is None and its.call("global") == 107 and its.call("asks") == -1
    assert its.value("count") == 107 and its.value("wide") == -2
    print(fails(w.Error, lambda: its.value("bump"), status=w.NONE))
    assert its.call("pair", -3, 2**40) == (2**40, -3) and start.function("pair") == ([32, 64], [64, 32])
print(fails(w.Stopped, lambda: w.Module(open(f"{folder}/fails.wasm", "rb").read()).instance(), ending="trap", trap=4))
module.close()
assert it.call("count") == 60
it.close()
print(fails(w.Error, lambda: it.call("count"), status=w.EMPTY))
print("instance_test.py: all is as it should be")
