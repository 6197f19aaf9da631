"""The header for hosts in C that `bind` writes: a static function for each function of the plug-in."""

from __future__ import annotations

from typing import List

from ._header import ALLOCATORS, NUMBERS, Arg, Function, Header, Struct, Taken, renamed

# Words of C++, which may include the header.
WORDS = """alignas alignof and and_eq asm bitand bitor bool catch char16_t char32_t char8_t class co_await co_return co_yield compl concept consteval
    constexpr constinit const_cast decltype delete dynamic_cast explicit export false friend mutable namespace new noexcept not not_eq nullptr operator
    or or_eq private protected public reinterpret_cast requires static_assert static_cast template this thread_local throw true try typeid typename
    using virtual wchar_t xor xor_eq""".split()
# Names that the functions use themselves.
OWN = (*WORDS, "plugin", "status", "args", "areas", "result", "result_room", "strlen")
TAKEN = Taken(WORDS, OWN, (*OWN, "it", "at", "main"))

# Of all such headers; the first that is included brings it.
HELPERS = r"""#ifndef WASMLOOP_BIND
#define WASMLOOP_BIND
#include <stdbool.h>
#include <string.h>
#include "wasmloop.h"

/* What a function returns beside wasmloop.h's statuses: the plug-in did not return, and `ended` says why; it returned an error below 0,
 * which is in *result; or it has more bytes than there is room for. */
enum { BIND_STOPPED = -1, BIND_FAILED = -2, BIND_ROOM = -3 };

/* An instance. Set `limits`, of each call, before it is opened; release it with wasmloop_drop(&plugin.instance). */
typedef struct bind_plugin {
    wasmloop_handle instance;
    wasmloop_call_limits limits;
    wasmloop_ended ended; /* of the last call */
} bind_plugin;

typedef struct bind_type { const char *name, *params, *results; } bind_type;

/* Bytes in the plug-in's memory, for one call: those that are given, or a place for as many. */
typedef struct bind_area { const void *data; size_t size; uint32_t at; } bind_area;

static inline int bind_same(const uint8_t *kinds, uint64_t count, const char *wanted)
{
    if (count != strlen(wanted))
        return 0;
    for (uint64_t i = 0; i < count; i++)
        if (kinds[i] != wanted[i] - '0')
            return 0;
    return 1;
}

/* Creates the instance, if each function has its type in the module: else NONE, or ARGUMENTS. */
static inline int bind_open(const wasmloop_handle *module, bind_plugin *plugin, const bind_type *types, size_t count)
{
    for (size_t i = 0; i < count; i++) {
        wasmloop_type type;
        int status = wasmloop_function(module, types[i].name, &type);
        if (status != WASMLOOP_OK)
            return status;
        if (!bind_same(type.param, type.params, types[i].params) || !bind_same(type.result, type.results, types[i].results))
            return WASMLOOP_ARGUMENTS;
    }
    return wasmloop_instance(module, &plugin->limits, &plugin->instance, &plugin->ended);
}

static inline int bind_run(bind_plugin *plugin, const char *name, const uint64_t *args, size_t count)
{
    int status = wasmloop_call(&plugin->instance, name, args, count, &plugin->limits, &plugin->ended);
    if (status == WASMLOOP_OK && plugin->ended.ending != WASMLOOP_RETURN)
        return BIND_STOPPED;
    return status;
}

/* Finds places for all areas, and writes what is given. */
static inline int bind_place(bind_plugin *plugin, const char *allocator, bind_area *areas, size_t count)
{
    uint64_t size = 16;
    for (size_t i = 0; i < count; i++) {
        if (areas[i].size > INT32_MAX)
            return WASMLOOP_RANGE;
        size += (areas[i].size + 15) & ~(uint64_t)15;
    }
    if (size > INT32_MAX)
        return WASMLOOP_RANGE;
    int status = bind_run(plugin, allocator, &size, 1);
    if (status == WASMLOOP_OK && !plugin->ended.result[0])
        return WASMLOOP_MEMORY;
    uint32_t at = (uint32_t)plugin->ended.result[0];
    for (size_t i = 0; i < count && status == WASMLOOP_OK; i++) {
        areas[i].at = at;
        if (areas[i].data)
            status = wasmloop_write(&plugin->instance, at, (const uint8_t *)areas[i].data, areas[i].size);
        at += ((uint32_t)areas[i].size + 15) & ~15u;
    }
    return status;
}

/* Gives the places back to the plug-in's own allocator, unless the call did not return: then its backtrace stays that of the last call, and its heap
 * may be in any state. What the call before it did stays in `ended`. */
static inline int bind_free(bind_plugin *plugin, const bind_area *areas, int status)
{
    if (status == BIND_STOPPED)
        return status;
    uint64_t at = areas[0].at;
    wasmloop_ended ended = plugin->ended;
    int freed = at ? bind_run(plugin, "free", &at, 1) : WASMLOOP_OK;
    if (freed == WASMLOOP_OK)
        plugin->ended = ended;
    return status != WASMLOOP_OK ? status : freed;
}

/* Reads what a function wrote: `count` bytes, as it returned, or an error. */
static inline int bind_read(bind_plugin *plugin, const bind_area *area, void *into, int64_t count)
{
    if (count < 0)
        return BIND_FAILED;
    if ((uint64_t)count > area->size)
        return BIND_ROOM;
    return wasmloop_read(&plugin->instance, area->at, (uint8_t *)into, (size_t)count);
}

/* Reads a text up to its zero. */
static inline int bind_text(bind_plugin *plugin, uint32_t at, char *into, uint32_t room)
{
    for (uint32_t i = 0; i < room; i++) {
        int status = wasmloop_read(&plugin->instance, at + i, (uint8_t *)into + i, 1);
        if (status != WASMLOOP_OK || !into[i])
            return status;
    }
    return BIND_ROOM;
}

static inline void bind_put(uint8_t *at, uint64_t value, size_t size)
{
    for (size_t i = 0; i < size; i++)
        at[i] = (uint8_t)(value >> 8 * i);
}

static inline uint64_t bind_get(const uint8_t *at, size_t size)
{
    uint64_t value = 0;
    for (size_t i = 0; i < size; i++)
        value |= (uint64_t)at[i] << 8 * i;
    return value;
}
#endif
"""


def struct_of(it: Struct) -> str:
    """The struct itself; and how its bytes are written and read."""
    fields = " ".join(f"{kind} {name};" for kind, name in it.fields)
    put = "".join(f"    bind_put(at + {at}, (uint64_t)it->{name}, {NUMBERS[kind].bits // 8});\n" for (kind, name), at in zip(it.fields, it.offsets))
    get = "".join(f"    it->{name} = ({kind})bind_get(at + {at}, {NUMBERS[kind].bits // 8});\n" for (kind, name), at in zip(it.fields, it.offsets))
    return (f"typedef struct {it.shown} {{ {fields} }} {it.shown};\n\n"
            f"static inline void bind_put_{it.name}(const {it.shown} *it, uint8_t *at)\n{{\n    memset(at, 0, {it.size});\n{put}}}\n\n"
            f"static inline void bind_get_{it.name}({it.shown} *it, const uint8_t *at)\n{{\n{get}}}\n")


def declared(header: Header, arg: Arg) -> str:
    """An argument of the function in C."""
    if arg.kind == "number":
        return f"{arg.type} {arg.name}"
    star = f"{'' if arg.out else 'const '}{header.structs[arg.type].shown if arg.kind == 'struct' else arg.type} *{arg.name}"
    return f"{star}, uint32_t {arg.name}_{'room' if arg.out else 'size'}" if arg.sized else star


def area(header: Header, arg: Arg) -> str:
    """The data and the size of an argument's area."""
    if arg.kind == "struct":
        return f"{{ {'NULL' if arg.out else f'{arg.name}_raw'}, {header.structs[arg.type].size}, 0 }}"
    if arg.sized:
        return f"{{ {'NULL' if arg.out else arg.name}, {arg.name}_{'room' if arg.out else 'size'}, 0 }}"
    return f"{{ {arg.name}, strlen({arg.name}) + 1, 0 }}"


def words(it: Function) -> str:
    """The numbers that the function is called with."""
    return it.words(lambda arg: f"({'uint64_t' if NUMBERS[arg.type].width == 64 else 'uint32_t'}){arg.name}",
                    lambda arg, at: [f"areas[{at}].at", *[f"{arg.name}_{'room' if arg.out else 'size'}"] * arg.sized])


def taken(header: Header, it: Function, number: int) -> List[str]:
    """The statements that take what the function returned and wrote."""
    out, made = it.out, []
    if it.result in NUMBERS:
        made += ["    if (status == WASMLOOP_OK)", f"        *result = ({it.result})plugin->ended.result[0];"]
    if it.result == "text":
        made += ["    if (status == WASMLOOP_OK)", "        status = bind_text(plugin, (uint32_t)plugin->ended.result[0], result, result_room);"]
    if out and out.kind == "struct":
        size = header.structs[out.type].size
        count = str(size) if it.result == "void" else f"*result < 0 ? -1 : {size}"
        made += [f"    uint8_t {out.name}_raw[{size}];", "    if (status == WASMLOOP_OK)",
                 f"        status = bind_read(plugin, &areas[{number}], {out.name}_raw, {count});",
                 "    if (status == WASMLOOP_OK)", f"        bind_get_{out.type}({out.name}, {out.name}_raw);"]
    elif out:
        made += ["    if (status == WASMLOOP_OK)", f"        status = bind_read(plugin, &areas[{number}], {out.name}, *result);"]
    return made


def function_of(header: Header, it: Function) -> str:
    areas = it.areas
    result = ["char *result", "uint32_t result_room"] if it.result == "text" else [] if it.result == "void" else [f"{it.result} *result"]
    args = ", ".join(["bind_plugin *plugin", *(declared(header, arg) for arg in it.args), *result])
    lines = [f"/* {it.text} */", f"static inline int {header.name}_{it.name}({args})", "{"]
    for arg in areas:
        if arg.kind == "struct" and not arg.out:
            lines += [f"    uint8_t {arg.name}_raw[{header.structs[arg.type].size}];", f"    bind_put_{arg.type}({arg.name}, {arg.name}_raw);"]
    status = "WASMLOOP_OK"
    if areas:
        lines += [f"    bind_area areas[] = {{ {', '.join(area(header, arg) for arg in areas)} }};"]
        status = f'bind_place(plugin, "{header.allocator}", areas, {len(areas)})'
    lines += [f"    int status = {status};"]
    count = len(it.params)
    lines += [f"    uint64_t args[] = {{ {words(it)} }};"] * bool(count)
    lines += ["    if (status == WASMLOOP_OK)", f'        status = bind_run(plugin, "{it.name}", {"args" if count else "NULL"}, {count});']
    lines += taken(header, it, areas.index(it.out) if it.out else 0)
    lines += ["    return bind_free(plugin, areas, status);" if areas and header.allocator == "malloc" else "    return status;", "}"]
    return "\n".join(lines) + "\n"


def written(header: Header) -> str:
    """The whole header."""
    header = renamed(header, TAKEN._replace(args=[*OWN, *header.structs]))
    guard = f"{header.name.upper()}_HOST_H"
    rows = ",\n        ".join(f'{{ "{it.name}", "{"".join(str(bits // 32) for bits in it.params)}", "{"".join(str(bits // 32) for bits in it.results)}" }}'
                              for it in header.functions)
    opened = (f"/* Creates the instance, if the module has these functions with these types: else NONE, or ARGUMENTS. */\n"
              f"static inline int {header.name}_open(const wasmloop_handle *module, bind_plugin *plugin)\n{{\n"
              f"    static const bind_type types[] = {{\n        {rows}\n    }};\n"
              f"    return bind_open(module, plugin, types, sizeof types / sizeof *types);\n}}\n")
    parts = [f"/* Typed calls of a plug-in, for hosts. Written by `python3 -m wasmloop.bind {header.name}.h`. */\n#ifndef {guard}\n#define {guard}\n",
             HELPERS, *map(struct_of, header.structs.values()), opened,
             *(function_of(header, it) for it in header.functions if it.name not in ALLOCATORS), "#endif\n"]
    return "\n".join(parts)
