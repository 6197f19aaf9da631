"""The module for hosts in Rust that `bind` writes, over the crate wasmloop."""

from __future__ import annotations

from typing import Tuple

from ._header import ALLOCATORS, NUMBERS, Arg, Function, Header, Struct, Taken, camel, renamed

WORDS = """abstract as async await become box break const continue crate do dyn else enum extern false final fn for gen if impl in let loop macro match mod
    move mut override priv pub ref return self Self static struct super trait true try type typeof unsafe unsized use virtual where while yield""".split()
# Names that the methods use themselves, and types that the module has or uses.
TAKEN = Taken(WORDS, (*WORDS, "told", "places", "made", "text", "zero_ended", "TYPES", "None", "Some", "Ok", "Err"),
              "Self Result Option Vec String From Error Instance Module Failure Typed Bound".split())

HELPERS = r"""#![allow(dead_code, non_snake_case, non_camel_case_types)]

use wasmloop::{Error, Instance, Module};

/// Why a call failed.
#[derive(Debug)]
pub enum Failure {
    /// The library's reason; `Error::Stopped` if the plug-in did not return, `Error::Late` if its deadline passed.
    Error(Error),
    /// This function has another type in the module.
    Type(&'static str),
    /// The function returned an error: this number below 0.
    Code(i64),
    /// It has so many bytes, and less room was given.
    Room(i64),
    /// The plug-in has no room for the arguments.
    Memory,
    /// A text is not UTF-8, or has a zero within.
    Text,
}

impl From<Error> for Failure {
    fn from(why: Error) -> Self {
        Failure::Error(why)
    }
}

impl std::fmt::Display for Failure {
    fn fmt(&self, to: &mut std::fmt::Formatter) -> std::fmt::Result {
        match self {
            Failure::Error(why) => why.fmt(to),
            Failure::Type(name) => write!(to, "{name} has another type in the module"),
            Failure::Code(code) => write!(to, "the function returned {code}"),
            Failure::Room(count) => write!(to, "the function has {count} bytes, for less room"),
            Failure::Memory => to.write_str("the plug-in has no room for the arguments"),
            Failure::Text => to.write_str("a text is not UTF-8, or has a zero within"),
        }
    }
}

impl std::error::Error for Failure {}

fn text(bytes: Vec<u8>) -> Result<String, Failure> {
    String::from_utf8(bytes).map_err(|_| Failure::Text)
}

fn zero_ended(text: &str) -> Result<Vec<u8>, Failure> {
    std::ffi::CString::new(text).map(|it| it.into_bytes_with_nul()).map_err(|_| Failure::Text)
}

/// So many bytes are given to an area.
fn space(area: &(&[u8], usize)) -> usize {
    (area.0.len().max(area.1) + 15) & !15
}

/// The name of a function, and the types of its parameters and results.
type Typed = (&'static str, &'static [u8], &'static [u8]);

struct Bound {
    instance: Instance,
    fuel: u64,
    depth: u32,
    deadline: Option<std::time::Duration>,
    allocator: &'static str,
}

impl Bound {
    fn new(module: &Module, types: &[Typed], allocator: &'static str, fuel: u64, depth: u32) -> Result<Bound, Failure> {
        for (name, params, results) in types {
            let found = module.function(name)?;
            if (found.params(), found.results()) != (*params, *results) {
                return Err(Failure::Type(name));
            }
        }
        Ok(Bound { instance: Instance::new(module, fuel, depth)?, fuel, depth, deadline: None, allocator })
    }

    fn run(&mut self, name: &str, args: &[u64]) -> Result<u64, Failure> {
        let ended = match self.deadline {
            Some(deadline) => self.instance.call_within(name, args, self.fuel, self.depth, deadline)?,
            None => self.instance.call(name, args, self.fuel, self.depth)?,
        };
        Ok(ended.results().first().copied().unwrap_or(0))
    }

    /// Finds places for bytes that are given, and for those that the function writes.
    fn place(&mut self, areas: &[(&[u8], usize)]) -> Result<Vec<u32>, Failure> {
        let size = 16 + areas.iter().map(space).sum::<usize>();
        let size = u32::try_from(size).map_err(|_| Failure::Memory)?;
        let mut at = self.run(self.allocator, &[size.into()])? as u32;
        if at == 0 {
            return Err(Failure::Memory);
        }
        let mut places = Vec::new();
        for area in areas {
            places.push(at);
            self.instance.write(at, area.0)?;
            at = at.wrapping_add(space(area) as u32);
        }
        Ok(places)
    }

    /// Gives the places back to the plug-in's own allocator, unless the call did not return: then its backtrace stays that of the last call,
    /// and its heap may be in any state.
    fn freed<T>(&mut self, places: &[u32], made: Result<T, Failure>) -> Result<T, Failure> {
        if self.allocator != "malloc" || matches!(made, Err(Failure::Error(Error::Stopped { .. } | Error::Late { .. }))) {
            return made;
        }
        let freed = self.run("free", &[places[0].into()]);
        let made = made?;
        freed.map(|_| made)
    }

    /// What a function wrote: `count` bytes, as it returned, or an error.
    fn read(&mut self, at: u32, count: i64, room: usize) -> Result<Vec<u8>, Failure> {
        if count < 0 {
            return Err(Failure::Code(count));
        }
        if count as u64 > room as u64 {
            return Err(Failure::Room(count));
        }
        let mut bytes = vec![0; count as usize];
        self.instance.read(at, &mut bytes)?;
        Ok(bytes)
    }

    /// A text up to its zero: the plug-in says how long it is, so it is read in parts that double.
    fn string(&mut self, at: u32) -> Result<String, Failure> {
        let (mut bytes, mut at, mut step, size) = (Vec::new(), u64::from(at), 64, self.instance.size()?);
        while at < size {
            let mut part = vec![0; step.min(size - at) as usize];
            self.instance.read(at as u32, &mut part)?;
            if let Some(end) = part.iter().position(|&it| it == 0) {
                bytes.extend(&part[..end]);
                return text(bytes);
            }
            at += part.len() as u64;
            step *= 2;
            bytes.append(&mut part);
        }
        Err(Failure::Text)
    }
}
"""


def type_of(name: str) -> str:
    number = NUMBERS[name]
    return "bool" if name == "bool" else f"{'i' if number.signed else 'u'}{number.bits}"


def struct_of(it: Struct) -> str:
    def read(kind: str, at: int) -> str:
        size = NUMBERS[kind].bits // 8
        return f"at[{at}] != 0" if kind == "bool" else f"{type_of(kind)}::from_le_bytes(at[{at}..{at + size}].try_into().unwrap())"

    def written(kind: str, name: str) -> str:
        return f"(self.{name} as u8).to_le_bytes()" if kind == "bool" else f"self.{name}.to_le_bytes()"
    places = list(zip(it.fields, it.offsets))
    fields = "".join(f"    pub {name}: {type_of(kind)},\n" for kind, name in it.fields)
    put = "".join(f"        at[{at}..{at + NUMBERS[kind].bits // 8}].copy_from_slice(&{written(kind, name)});\n" for (kind, name), at in places)
    get = "".join(f"            {name}: {read(kind, at)},\n" for (kind, name), at in places)
    return (f"#[derive(Clone, Copy, Debug, PartialEq, Eq)]\npub struct {it.shown} {{\n{fields}}}\n\n"
            f"impl {it.shown} {{\n    fn bytes(&self) -> [u8; {it.size}] {{\n        let mut at = [0; {it.size}];\n{put}        at\n    }}\n\n"
            f"    fn of(at: &[u8]) -> Self {{\n        {it.shown} {{\n{get}        }}\n    }}\n}}\n")


def declared(header: Header, arg: Arg) -> str:
    """An argument of the method; nothing of a struct that it returns."""
    if arg.kind == "number":
        return f"{arg.name}: {type_of(arg.type)}"
    if arg.out:
        return "" if arg.kind == "struct" else f"{arg.name}_room: usize"
    return f"{arg.name}: &{'str' if arg.kind == 'text' else '[u8]' if arg.kind == 'bytes' else header.structs[arg.type].shown}"


def area(header: Header, arg: Arg) -> Tuple[str, str]:
    """The bytes of an argument's area, or its size; and the size that is passed to the function."""
    if arg.out:
        size = str(header.structs[arg.type].size) if arg.kind == "struct" else f"{arg.name}_room"
        return f"(&[], {size})", f"{size} as u64"
    if arg.kind == "struct":
        return f"(&{arg.name}.bytes(), 0)", ""
    data = f"{arg.name}.as_bytes()" if arg.kind == "text" and arg.sized else f"&zero_ended({arg.name})?" if arg.kind == "text" else arg.name
    return f"({data}, 0)", f"{arg.name}.len() as u64"


def words(header: Header, it: Function) -> str:
    """The numbers that the function is called with."""
    def number(arg: Arg) -> str:
        kind = NUMBERS[arg.type]
        return f"{arg.name} as u64" if kind.bits == 64 or not kind.signed else f"{arg.name} as i32 as u32 as u64"

    return it.words(number, lambda arg, at: [f"places[{at}].into()", *[area(header, arg)[1]] * arg.sized])


def result_of(header: Header, it: Function, number: int) -> Tuple[str, str, str]:
    """The type that the method returns, what becomes of the number, and of the result."""
    out = it.out
    if out and out.kind == "struct":
        size, name = header.structs[out.type].size, header.structs[out.type].shown
        count = str(size) if it.result == "void" else f"if (told as i32) < 0 {{ i64::from(told as i32) }} else {{ {size} }}"
        then = f".and_then(|{'_' if it.result == 'void' else 'told'}| self.bound.read(places[{number}], {count}, {size}))"
        return name, then, f"made.map(|it| {name}::of(&it))"
    if out:
        then = f".and_then(|told| self.bound.read(places[{number}], i64::from(told as i32), {out.name}_room))"
        return ("Vec<u8>", then, "made") if out.kind == "bytes" else ("String", then, "made.and_then(text)")
    if it.result == "text":
        return "String", ".and_then(|told| self.bound.string(told as u32))", "made"
    if it.result == "void":
        return "()", ".map(|_| ())", "made"
    return type_of(it.result), f".map(|told| told as {'u32 != 0' if it.result == 'bool' else type_of(it.result)})", "made"


def method(header: Header, it: Function) -> str:
    areas = it.areas
    kind, then, last = result_of(header, it, areas.index(it.out) if it.out else 0)
    args = ", ".join(["&mut self", *filter(None, (declared(header, arg) for arg in it.args))])
    call = f'self.bound.run("{it.name}", &[{words(header, it)}]){then}'
    head = [f"    /// {it.text}", f"    pub fn {it.shown}({args}) -> Result<{kind}, Failure> {{"]
    if not areas:
        return "\n".join([*head, f"        {call}", "    }"])
    placed = f"        let places = self.bound.place(&[{', '.join(area(header, arg)[0] for arg in areas)}])?;"
    made = f"        let made = {call};\n        let made = self.bound.freed(&places, made);"
    if last == "made":
        made, last = f"        let made = {call};", "self.bound.freed(&places, made)"
    return "\n".join([*head, placed, made, f"        {last}", "    }"])


def written(header: Header) -> str:
    """The whole module."""
    name = camel(header.name)
    header = renamed(header, TAKEN._replace(types=[*TAKEN.types, name]), camel)
    rows = "\n".join(f'    ("{it.name}", &{[bits // 32 for bits in it.params]}, &{[bits // 32 for bits in it.results]}),' for it in header.functions)
    head = (f"const TYPES: &[Typed] = &[\n{rows}\n];\n\n/// An instance with typed calls.\npub struct {name} {{\n    bound: Bound,\n}}\n\nimpl {name} {{\n"
            "    /// Creates an instance, if each function has its type in the module. `fuel` and `depth` are each call's limits.\n"
            "    pub fn new(module: &Module, fuel: u64, depth: u32) -> Result<Self, Failure> {\n"
            f"        Bound::new(module, TYPES, \"{header.allocator}\", fuel, depth).map(|bound| Self {{ bound }})\n    }}\n\n"
            "    /// How long each call may take, from now on.\n"
            "    pub fn set_deadline(&mut self, deadline: Option<std::time::Duration>) {\n        self.bound.deadline = deadline;\n    }\n\n"
            "    /// The instance: its memory, and the backtrace of the last call.\n"
            "    pub fn instance(&mut self) -> &mut Instance {\n        &mut self.bound.instance\n    }\n")
    methods = "\n\n".join(method(header, it) for it in header.functions if it.name not in ALLOCATORS)
    return "\n".join([f"//! Typed calls of a plug-in. Written by `python3 -m wasmloop.bind {header.name}.h`.\n{HELPERS}",
                      *map(struct_of, header.structs.values()), f"{head}\n{methods}\n}}\n"])
