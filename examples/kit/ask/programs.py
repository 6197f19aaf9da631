"""Runs programs in a plug-in that asks: their text goes into its memory, and its reply comes out of it."""

from __future__ import annotations

from wasmloop import Instance, ask

FUEL, DEPTH = 1 << 40, 128


def number(instance: Instance, name: str) -> int:
    """The result of a function that returns one number."""
    result = instance.call(name)
    assert isinstance(result, int)
    return result


async def run(plugin: ask.Plugin, program: str) -> tuple[object, str]:
    """What `run` returns, and the reply."""
    instance, text = plugin.instance, program.encode()
    at = number(instance, "program_at")
    instance.memory[at:at + len(text)] = text
    status = await plugin.call("run", len(text), fuel=FUEL, depth=DEPTH)
    at, size = number(instance, "reply_at"), number(instance, "reply_size")
    return status, instance.memory[at:at + size].decode()
