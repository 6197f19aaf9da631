#!/usr/bin/env python3
"""Lua that asks its host: builds lua.c with Debian's Lua, as ../../libraries builds its guests, and runs programs under asyncio.

usage: WASMLOOP=PROGRAM PYTHONPATH=capi/python WASMLOOP_LIBRARY=LIBRARY lua.py

What a program returns is compared with the same by the Lua of ../../libraries, which can't ask, and so are the units of programs that never ask.
It needs what examples/libraries needs, and binaryen for the Lua that asks anywhere.
"""

from __future__ import annotations

import asyncio
import pathlib
import shutil
import sys

HERE = pathlib.Path(__file__).resolve().parent
sys.path.insert(0, str(HERE.parent.parent / "libraries"))

import compiling                                        # noqa: E402
import libraries                                        # noqa: E402
from programs import DEPTH, FUEL, run                   # noqa: E402
from wasmloop import Module, ask                        # noqa: E402

OUT = compiling.OUT / "ask"
CROWD, MOST = 100, 1.02
PROGRAMS = {
    "one question": 'return "the price is " .. ask("12")',
    "questions in pcall, coroutines, iterators and metamethods": '''
        local told = {}
        local ok, why = pcall(function() told[#told + 1] = ask("1"); error("after " .. ask("2")) end)
        told[#told + 1] = why
        local routine = coroutine.wrap(function() for i = 3, 5 do coroutine.yield(ask(tostring(i))) end end)
        for i = 3, 5 do told[#told + 1] = routine() end
        local prices = setmetatable({}, { __index = function(_, sku) return tonumber(ask(tostring(sku))) end })
        told[#told + 1] = prices[6] + prices[7]
        local deep = coroutine.create(function(...) return coroutine.wrap(function(...) return ask("8"), pcall(ask, ...) end)(...) end)
        local results = { coroutine.resume(deep, "9") }
        told[#told + 1] = results[2] .. " " .. results[4] .. " " .. coroutine.status(deep)
        for sku in function(_, sku) return (sku or 9) < 12 and (sku or 9) + 1 or nil end do told[#told + 1] = prices[sku] end
        local skus = { 9, 8, 11, 10 }
        for _, sku in ipairs(skus) do rawset(prices, sku, prices[sku]) end
        table.sort(skus, function(a, b) return prices[a] < prices[b] end)
        told[#told + 1] = table.concat(skus, " ")
        return table.concat(told, "; ")''',
    "a thousand questions": 'local sum = 0; for i = 1, 1000 do sum = sum + ask(tostring(i)) end; return sum',
    "no answer": 'return tostring(ask("none"))',
    "coroutines that don't ask": '''
        local told = { select(2, pcall(function() coroutine.yield(1) end)) }
        local routine = coroutine.create(function(...) for i = 1, 3 do coroutine.yield(i, ...) end; error("over") end)
        for i = 1, 5 do
            local results = table.pack(coroutine.resume(routine, 7, 8))
            for k = 1, results.n do told[#told + 1] = tostring(results[k]) end
        end
        told[#told + 1] = select(2, pcall(coroutine.wrap(function() error("wrapped") end)))
        return table.concat(told, " ")''',
}
KNOWN = "local function ask(sku) if sku == 'none' then return nil end return tostring(math.tointeger(sku) * 7 % 1000) end "
# Where a function in C stands between `ask` and the program.
BETWEEN = '''
    local told = {}
    local function try(name) told[#told + 1] = name .. ": " .. (select(2, pcall(ask, "1"))) end
    table.sort({ 1, 2 }, function() try("sort") end)
    string.gsub("x", "x", function() try("gsub") end)
    tostring(setmetatable({}, { __tostring = function() try("tostring") return "" end }))
    table.sort({ 1, 2 }, coroutine.wrap(function() try("a coroutine in sort") end))
    setmetatable({}, { __gc = function() try("a finalizer") end })
    collectgarbage()
    return table.concat(told, "; ") .. "; " .. ask("2")'''
PLACES = ("sort", "gsub", "tostring", "a coroutine in sort", "a finalizer")
NEVER = {
    "loops and calls": '''
        local function fib(n) if n < 2 then return n end return fib(n - 1) + fib(n - 2) end
        local t, s = {}, 0
        for i = 1, 3000 do t[i] = i * i % 97; s = s + t[i] // 3; if i % 10 == 0 then t["k" .. i] = s end end
        return fib(18) + s''',
    "a sort": 'local t = {} for i = 1, 2000 do t[i] = i * i % 97 end table.sort(t) return table.concat(t, ",")',
    "coroutines": '''
        local sum = 0
        for value in coroutine.wrap(function() for i = 1, 5000 do coroutine.yield(i) end end) do sum = sum + value end
        return sum''',
    "errors": "local sum = 0 for i = 1, 1000 do sum = sum + #select(2, pcall(error, 'no ' .. i)) end return sum",
}


async def price(question: bytes) -> bytes | None:
    await asyncio.sleep(0)
    return None if question == b"none" else str(int(question) * 7 % 1000).encode()


def built(port: libraries.Port, anywhere: bool) -> bytes:
    """The plug-in; one that asks anywhere goes through Asyncify."""
    name, flags, sources = ("lua_anywhere", ["-DANYWHERE", "-DASK_STACK=16384"], ["lua.c", "ask.c"]) if anywhere else ("lua_ask", [], ["lua.c"])
    words, made = compiling.WASM + compiling.port_flags("lua", port) + ["-mllvm", "-enable-emscripten-sjlj", f"-I{HERE}"], OUT / f"{name}.wasm"
    kit = [compiling.KIT / it for it in ("guest.c", "wasi.c", "nofiles.c", "setjmp.c")] + [compiling.HERE.parent / "mem.c"]
    objects = compiling.compile_all(words + flags, [HERE / it for it in sources], OUT / name)
    objects += compiling.compile_all(words, compiling.files(port.sources, port.without), OUT / "w")
    objects += compiling.compile_all(compiling.WASM + ["-ffreestanding"], kit, OUT / "k")
    compiling.call(*compiling.LINK, "--import-undefined", "-o", made, *objects, *compiling.LIBRARIES)
    if anywhere:
        made.write_bytes(ask.asyncified(made.read_bytes()))
    compiling.call(sys.executable, compiling.KIT / "lower.py", made, made, "--soft", compiling.soft())
    return made.read_bytes()


async def told(module: Module, program: str) -> tuple[str, int]:
    """What a program returns, and its units."""
    with ask.Plugin(module, price, FUEL, DEPTH) as plugin:
        plugin.instance.call("_initialize")
        status, reply = await run(plugin, program)
        return f"{status} {reply}", plugin.used


def by_plain(module: Module, program: str) -> tuple[str, int]:
    """The same by the Lua that can't ask."""
    reply = module.work(0, f"print((function() {program}\nend)())".encode(), FUEL, DEPTH)
    return f"{reply.value} {reply.data.decode()[:-1]}", reply.used


async def compare(module: Module, plain: Module, anywhere: bool) -> int:
    wrong = 0
    for name, program in PROGRAMS.items():
        (asked, units), (known, own) = await told(module, program), by_plain(plain, KNOWN + program)
        known = known.replace("request:", "program:")
        wrong += asked != known
        print(f"{name}: {'as with its own prices' if asked == known else f'WRONG: {asked}, not {known}'}, {units:,} units, {own:,} with its own")
    crowd = await asyncio.gather(*(told(module, PROGRAMS["one question"]) for _ in range(CROWD)))
    wrong += len(set(crowd)) != 1
    print(f"{CROWD} programs waited in one thread")
    answers = (await told(module, BETWEEN))[0]
    answer = "7" if anywhere else "attempt to ask across a C-call boundary"
    wrong += answers != "0 " + "; ".join([f"{it}: {answer}" for it in PLACES] + ["14"])
    print(f"where a C function is between: {answers}")
    for name, program in NEVER.items():
        (asked, units), (known, own) = await told(module, program), by_plain(plain, program)
        wrong += asked != known or units > MOST * own
        print(f"{name}, which never asks: {units:,} units, {own:,} by Lua without questions: {units / own:.3f}"
              f"{'' if asked == known else f', WRONG: {asked}, not {known}'}")
    return wrong


def main() -> bool:
    port = libraries.PORTS["lua"]
    if not compiling.fetch(port.package):
        print("left out: Lua that asks: the sources of Lua can't be fetched")
        return False
    plain, wrong = compiling.module("lua", port).read_bytes(), 0
    for anywhere in (False, True) if shutil.which("wasm-opt") else (False,):
        data = built(port, anywhere)
        print(f"{'asks anywhere' if anywhere else 'yields'}: {len(data):,} bytes, {len(plain):,} without questions", flush=True)
        wrong += asyncio.run(compare(Module(data), Module(plain), anywhere))
    if not shutil.which("wasm-opt"):
        print("left out: Lua that asks anywhere: there is no wasm-opt")
    return wrong != 0


if __name__ == "__main__":
    sys.exit(main())
