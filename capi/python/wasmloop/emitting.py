"""Adds the import uv.emit to a module without it, so that a callback can emit. The imports come first among the functions, so the index of each
function that the module defines becomes one more; its instructions stay as many."""

from __future__ import annotations

from .wasm import CALL, CODE, ELEMENT, EXPORT, I32, I64, IMPORT, START, TYPE, Body, Module, number, sized, text, u, vec

EMIT = b"\x60" + sized(bytes([I64])) + sized(bytes([I32]))


def with_emit(module: Module) -> Module:
    """The module, if it imports uv.emit; else one that does."""
    if "emit" in module.imported:
        return module
    first, data = len(module.imported), module.data

    def moved(function: int) -> bytes:
        return u(function + (function >= first))

    def body(it: Body) -> bytes:
        code = (b"\x10" + moved(number(data, start + 1)[0]) if op == CALL else data[start:end] for start, op, end in it.ops)
        return sized(data[it.start:it.code] + b"".join(code))

    types = [b"\x60" + sized(params) + sized(results) for params, results in module.types]
    added = text("uv") + text("emit") + b"\0" + u(len(types))
    start, end = module.places.get(IMPORT, (0, 0))
    replaced = {
        TYPE: vec([*types, EMIT]),
        IMPORT: u(len(module.imports) + 1) + data[number(data, start)[1]:end] + added if end else vec([added]),
        EXPORT: vec([text(name) + bytes([kind]) + (u(index) if kind else moved(index)) for name, kind, index in module.exports]),
        CODE: vec([body(it) for it in module.bodies]),
    }
    if START in module.places:
        replaced[START] = moved(number(data, module.places[START][0])[0])
    if ELEMENT in module.places:
        replaced[ELEMENT] = vec([head + vec([moved(it) for it in functions]) for head, functions in module.elements()])
    return Module(module.written(replaced, dropped=(0,)))
