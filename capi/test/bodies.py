#!/usr/bin/env python3
"""Wrong bodies of capi/wasmloop.c and capi/names.c, the C before the proofs: each is linked to the proved object of a library, and a test of this folder
must fail. MISTAKES are of the C itself, which no proof sees. BEFORE do something else than the proved call: what a proved body could do too, where no
clause says otherwise.

usage: bodies.py LIBRARY OUT [NAME..]     LIBRARY: libwasmloop.a; OUT: a folder; NAME: some of the bodies
       bodies.py LIBRARY OUT --planted    its own test: a right body in other words is missed, and one without a place cannot be made
       bodies.py --check                  runs nothing: whether each can be made

Ends with 1 where a body passes all tests, where the right one fails, or where one cannot be made. It needs cc, and objcopy of binutils.
"""

from __future__ import annotations

import os
import subprocess
import sys
from pathlib import Path
from typing import Dict, List, Mapping, Optional, Sequence, Tuple, Union

Change = Tuple[str, str]

TOP = Path(__file__).resolve().parent.parent.parent
TESTS, EXAMPLES = TOP / "capi/test", TOP / "examples"
CHECKED = "-std=c11 -D_GNU_SOURCE -g -O1 -fsanitize=address,undefined -fno-sanitize-recover".split()
WRAPPED = ["-Wl,--wrap=malloc,--wrap=realloc"]
RUNS: List[Tuple[str, List[str], List[Union[str, Path]]]] = [  # a test, how it is linked, and its words; the fastest ones first
    ("edges_test", [], [EXAMPLES]),
    ("texts_test", [], [EXAMPLES]),
    ("turn_units", [], [EXAMPLES]),
    ("calls_test", ["-lpthread"], [EXAMPLES]),
    ("steps_test", [], [EXAMPLES, "300"]),
    ("slices_test", [], [EXAMPLES]),
    ("fuzz", WRAPPED, ["1", "300", *sorted(EXAMPLES.glob("*.wasm"))]),
]

RANGE = "return WASMLOOP_RANGE;\n    return (int)wasmloop_rt_"
WORDS = "return WASMLOOP_RANGE;\n    if (!bytes) return (int)wasmloop_rt_stop_text("
# each by its name: the text that is changed, which stands once, and what stands there instead
MISTAKES = {
    "2_20_bytes_are_too_long": ("length > ((size_t)1 << 20) ? ", "length >= ((size_t)1 << 20) ? "),
    "more_bytes_are_cut_to_2_20": ("? ((size_t)1 << 20) + 1 : length", "? ((size_t)1 << 20) : length"),
    "a_byte_more_is_looked_at": ("? ((size_t)1 << 20) + 1 : length", "? ((size_t)1 << 20) + 1 : length + (length == (size_t)1 << 20)"),
    "a_loop_that_is_a_job_is_accepted": ("return loop == job ? WASMLOOP_KIND : (int)wasmloop_rt_accept(", "return (int)wasmloop_rt_accept("),
    "a_loop_that_is_a_job_is_started": ("return loop == job ? WASMLOOP_KIND : (int)wasmloop_rt_job_start(", "return (int)wasmloop_rt_job_start("),
    "a_loop_that_is_a_job_hands_out": ("return loop == job ? WASMLOOP_KIND : (int)wasmloop_rt_next_job(", "return (int)wasmloop_rt_next_job("),
    "a_module_is_its_own_loop": ("    if (module == loop) return WASMLOOP_KIND;\n", ""),
    "a_module_is_its_own_job": ("    if (module == job) return WASMLOOP_KIND;\n", ""),
    "a_module_is_its_own_instance": ("    if (module == instance) return WASMLOOP_KIND;\n", ""),
    "a_module_is_its_own_share": ("    if (module == other) return WASMLOOP_KIND;\n", ""),
    "kind_comes_behind_range": ("    if (module == job) return WASMLOOP_KIND;\n    if (length > PTRDIFF_MAX) return WASMLOOP_RANGE;",
                                "    if (length > PTRDIFF_MAX) return WASMLOOP_RANGE;\n    if (module == job) return WASMLOOP_KIND;"),
    "a_turn_without_told": ("return loop && told ? (int)wasmloop_rt_turn(loop,", "return loop ? (int)wasmloop_rt_turn(loop,"),
    "a_turn_of_one_callback": ("wasmloop_rt_turn(loop, most_callbacks, told)", "wasmloop_rt_turn(loop, most_callbacks ? 1 : 0, told)"),
    "a_slice_of_a_step_without_over": ("return loop && over && did ? (int)wasmloop_rt_step_for(", "return loop && did ? (int)wasmloop_rt_step_for("),
    "a_slice_of_a_turn_without_over": ("return loop && over && told ? (int)wasmloop_rt_turn_for(", "return loop && told ? (int)wasmloop_rt_turn_for("),
    "a_slice_of_a_turn_of_one_unit_more": ("wasmloop_rt_turn_for(loop, most_callbacks, units, over, told)",
                                           "wasmloop_rt_turn_for(loop, most_callbacks, units + 1, over, told)"),
    "emits_take_bytes_for_room": (f"if (room > PTRDIFF_MAX / sizeof *into) {RANGE}emits(", f"if (room > PTRDIFF_MAX) {RANGE}emits("),
    "a_stop_takes_bytes_for_room": (f"if (room > PTRDIFF_MAX / sizeof *into) {RANGE}stop(", f"if (room > PTRDIFF_MAX) {RANGE}stop("),
    "places_take_bytes_for_room": (f"if (room > PTRDIFF_MAX / sizeof *into) {RANGE}stop_places(", f"if (room > PTRDIFF_MAX) {RANGE}stop_places("),
    "a_call_takes_bytes_for_count": (f"if (count > PTRDIFF_MAX / sizeof *arguments) {RANGE}call(", f"if (count > PTRDIFF_MAX) {RANGE}call("),
    "words_of_any_length": (f"if (length > PTRDIFF_MAX || room > PTRDIFF_MAX) {WORDS}", f"if (room > PTRDIFF_MAX) {WORDS}"),
    "words_in_any_room": (f"if (length > PTRDIFF_MAX || room > PTRDIFF_MAX) {WORDS}", f"if (length > PTRDIFF_MAX) {WORDS}"),
    "range_comes_before_null": (
        "if (!handle || !count || (!bytes && length) || (!into && room)) return WASMLOOP_NULL;\n"
        "    if (length > PTRDIFF_MAX || room > PTRDIFF_MAX) return WASMLOOP_RANGE;",
        "if (length > PTRDIFF_MAX || room > PTRDIFF_MAX) return WASMLOOP_RANGE;\n"
        "    if (!handle || !count || (!bytes && length) || (!into && room)) return WASMLOOP_NULL;"),
    "a_long_request_is_null": (f"if (length > PTRDIFF_MAX) {RANGE}request(", f"if (length > PTRDIFF_MAX) {RANGE}request(".replace("RANGE", "NULL")),
    "arguments_at_null": ("if (!instance || !name || !limits || !ended || (!arguments && count))", "if (!instance || !name || !limits || !ended)"),
    "no_bytes_at_null_are_refused": ("if (!instance || (!from && length)) return WASMLOOP_NULL;", "if (!instance || !from) return WASMLOOP_NULL;"),
    "a_byte_less_is_read": ("wasmloop_rt_read(handle, at, length ? into : (uint8_t *)&nothing, length)",
                            "wasmloop_rt_read(handle, at, length ? into : (uint8_t *)&nothing, length ? length - 1 : 0)"),
    "a_name_ends_at_255": ("    while (name[length]) length++;", "    while (name[length] && length < 255) length++;"),
    "work_does_not_run": ("return told == WASMLOOP_OK ? (int)wasmloop_rt_job_run(job) : told;", "return told;"),
    "two_statuses_change_names": ('"STRANGER", "USED_UP"', '"USED_UP", "STRANGER"'),
    "two_traps_change_names": ('"an index past the table", "an empty element"', '"an empty element", "an index past the table"'),
    "an_outcome_has_two_words": ('"spent", "nomemory"', '"spent", "no memory"'),
    "two_faults_change_names": ('"Export", "Start"', '"Start", "Export"'),
}

DECLARED = "/* a slice needs an address even where it has no elements */\n"  # behind all declarations
# What stands before a proved call: helpers, the text of the call that changes, and bodies that are more than a condition.
TURN_FOR = "int wasmloop_turn_for(wasmloop_handle *loop, uint32_t most_callbacks, uint64_t units, uint32_t *over, wasmloop_turned *told) {\n"
A_TURN = "    return loop && over && told ? (int)wasmloop_rt_turn_for(loop, most_callbacks, units, over, told) : WASMLOOP_NULL;"
KIND_OF = "static uint32_t kind_of(wasmloop_handle *it) { uint32_t kind = 0; wasmloop_rt_kind(it, &kind); return kind; }\n"
ONE_STEP = """    if (!loop || !over || !told) return WASMLOOP_NULL;
    if (!units || !most_callbacks) return WASMLOOP_RANGE;
    uint32_t begun = told->did.what == WASMLOOP_ENTERED && told->did.phase == WASMLOOP_TIMERS ? 0 : told->callbacks, done = 0;
    wasmloop_did did;
    int status = (int)wasmloop_rt_step_for(loop, units, &done, &did);
    if (status) return status;
    told->wait = 0;
    *over = 0;
    told->callbacks = begun;
    if (!done) return status;
    int ran = did.what == WASMLOOP_RAN, entered = did.what == WASMLOOP_ENTERED;
    told->did = did;
    told->callbacks = begun + ran;
    if (ran ? !did.emits && !did.ending && most_callbacks > 1 : entered ? did.phase != WASMLOOP_TIMERS : did.what == WASMLOOP_SKIPPED) return status;
    *over = 1;
    wasmloop_standing standing = { 0, 0, 0 };
    wasmloop_rt_standing(loop, &standing);
    if (standing.failed) told->wait = WASMLOOP_FOREVER;
    else if (entered && !told->callbacks) wasmloop_rt_hint(loop, &told->wait);
    return status;"""
A_STOP = "(int)wasmloop_rt_stop(handle, room ? into : (wasmloop_site *)&nothing, room, count);"
A_PLACE = "(int)wasmloop_rt_stop_places(handle, room ? into : (wasmloop_place *)&nothing, room, count);"
A_TEXT = "(int)wasmloop_rt_stop_told(length ? bytes : (const uint8_t *)&nothing, length, handle, room ? into : (char *)&nothing, room, count);"
A_KEPT_TEXT = "(int)wasmloop_rt_stop_text(handle, room ? into : (char *)&nothing, room, count);"
A_WARNING = "wasmloop_rt_warning(&shared, number,"


def turn(before: str, call: str = A_TURN) -> Change:
    """A turn in slices, with other lines before the call of the proved function or another one."""
    return TURN_FOR + A_TURN, KIND_OF + TURN_FOR + before + call


def each(call: str, change: str) -> Change:
    """A call that copies a list, each element of which is changed."""
    loop = f"for (size_t i = 0; status == WASMLOOP_OK && i < room && i < *count; i++) {change}"
    return f"    return {call}", f"    int status = {call}\n    {loop}\n    return status;"


def shorter(call: str) -> Change:
    """A call that copies words, one byte less of them."""
    return f"return {call}", f"{{ int status = {call}\n    if (status == WASMLOOP_OK && *count) *count -= 1;\n    return status; }}"


def without_memory(name: str, when: str = "++times % 3 == 0") -> Change:
    """A call that reports that there is no memory where all went well and this holds."""
    return DECLARED, (f"static unsigned times;\nstatic uint32_t none(uint32_t status, int when) {{ return status || !when ? status : WASMLOOP_MEMORY; }}\n"
                      f"#define wasmloop_rt_{name}(...) none((wasmloop_rt_{name})(__VA_ARGS__), {when})\n{DECLARED}")


BEFORE = {
    "a_paused_turn_is_refused": turn(
        "    if (loop && over && told && units && most_callbacks && kind_of(loop) & WASMLOOP_HOLDS_PAUSED) return WASMLOOP_KIND;\n"),
    "a_slice_of_a_turn_is_one_unit": turn("", A_TURN.replace("units,", "units > 1 ? 1 : units,")),
    "a_slice_of_a_turn_is_one_step": turn("", ONE_STEP),
    "each_third_turn_finds_no_memory": without_memory("turn_for"),
    "a_place_is_of_function_0": each(A_PLACE, "into[i].function = 0;"),
    "a_place_is_the_first_instruction": each(A_PLACE, "into[i].instruction = 0;"),
    "a_place_is_at_byte_0": each(A_PLACE, "into[i].byte = 0;"),
    "a_site_is_the_first_instruction": each(A_STOP, "into[i].operation = 0;"),
    "no_loop_has_a_stop": (f"return {A_STOP}", "uint64_t hint;\n    if (wasmloop_rt_hint(handle, &hint) == WASMLOOP_OK) return WASMLOOP_NONE;\n"
                           f"    return {A_STOP}"),
    "words_are_one_byte_short": shorter(A_TEXT),
    "words_without_the_module_are_one_byte_short": shorter(A_KEPT_TEXT),
    "each_third_job_finds_no_memory": without_memory("next_job"),
    "each_third_step_finds_no_memory": without_memory("step_for"),
    "each_third_begin_of_a_call_finds_no_memory": without_memory("call_begin"),
    "each_third_call_with_bytes_finds_no_memory": without_memory("call_bytes"),
    "each_third_sentence_finds_no_memory": without_memory("explain"),
    "each_third_stop_finds_no_memory": without_memory("stop_told"),
    "each_third_warning_finds_no_memory": without_memory("warning"),
    "there_is_no_warning": (A_WARNING, A_WARNING.replace("number", "number ? 1000 + number : 0")),
    "three_arguments_find_no_memory": without_memory("call", "count == 3"),
    "three_arguments_and_bytes_find_no_memory": without_memory("call_bytes", "count == 3"),
    "three_arguments_in_slices_find_no_memory": without_memory("call_begin", "count == 3"),
    "a_slice_of_a_job_is_half": ("(int)wasmloop_rt_job_run_for(job, units, over)", "(int)wasmloop_rt_job_run_for(job, units > 1 ? units / 2 : units, over)"),
}
BODIES: Dict[str, Change] = {**MISTAKES, **BEFORE}
PLANTED = {
    "a_right_body_in_other_words": ("length > ((size_t)1 << 20) ? ((size_t)1 << 20) + 1 : length",
                                    "length <= ((size_t)1 << 20) ? length : ((size_t)1 << 20) + 1"),
    "a_body_without_a_place": ("wasmloop_rt_no_such_call(", ""),
}


def run(*words: object, timeout: Optional[float] = None) -> subprocess.CompletedProcess[str]:
    return subprocess.run([str(it) for it in words], capture_output=True, text=True, check=False, timeout=timeout)


def made(*words: object) -> None:
    told = run(*words)
    if told.returncode:
        sys.exit(f"bodies: {' '.join(map(str, words))}\n{told.stderr}")


def sources() -> Dict[str, str]:
    return {name: (TOP / f"capi/{name}.c").read_text() for name in ("wasmloop", "names")}


def changed(texts: Mapping[str, str], change: Change) -> Optional[Dict[str, str]]:
    """The two C files with this change, or None where its text doesn't stand there once."""
    places = [name for name, text in texts.items() if text.count(change[0]) == 1]
    return {**texts, places[0]: texts[places[0]].replace(*change)} if len(places) == 1 else None


class Bench:
    """The tests, compiled once, and the proved object, whose public names give way to those of a body."""

    def __init__(self, library: Path, out: Path) -> None:
        self.out, self.sources = out, sources()
        made("ar", "x", "--output", out, library, "wasmloop.o")
        self.proved = out / "proved.o"
        made("objcopy", "--wildcard", "--weaken-symbol=wasmloop_*", "--globalize-symbol=wasmloop_rt_*", out / "wasmloop.o", self.proved)
        for test, _, _ in RUNS:
            made("cc", *CHECKED, f"-I{TOP}/capi/include", "-c", "-o", out / f"{test}.o", TESTS / f"{test}.c")

    def body(self, change: Optional[Change]) -> Optional[List[Path]]:
        """The objects of the two C files with this change, or None where it can't be made."""
        texts = changed(self.sources, change) if change else self.sources
        if not texts:
            return None
        objects: List[Path] = []
        for name, text in texts.items():
            (self.out / f"body_{name}.c").write_text(text)
            objects.append(self.out / f"body_{name}.o")
            made("cc", "-std=c99", "-O2", "-Wno-unused", f"-I{TOP}/capi/include", "-c", "-o", objects[-1], self.out / f"body_{name}.c")
        return objects

    def met_by(self, objects: Sequence[Path]) -> Optional[Tuple[str, str]]:
        """The first test that fails over these objects, and its last line; None where all pass."""
        for test, link, words in RUNS:
            made("cc", *CHECKED, *link, "-o", self.out / test, self.out / f"{test}.o", *objects, self.proved, *link)
            try:
                told = run(self.out / test, *words, timeout=300)
            except subprocess.TimeoutExpired:
                return test, "it hangs"
            if told.returncode:
                lines = (told.stdout + told.stderr).strip().split("\n")
                return test, next((it for it in lines if "ERROR" in it), lines[0])[:120]
        return None


def verdicts(bench: Bench, bodies: Mapping[str, Change]) -> List[str]:
    """Prints what becomes of each of these bodies, and returns it of those that no test meets."""
    told = []
    for name, change in bodies.items():
        objects = bench.body(change)
        found = bench.met_by(objects) if objects else None
        told.append(f"met by {found[0]}" if found else "MISSED" if objects else "CANNOT BE MADE")
        print(f"{told[-1]}: {name}{': ' + found[1] if found else ''}", flush=True)
    return [it for it in told if not it.startswith("met")]


def check() -> int:
    """Whether each body can be made."""
    wrong = [name for name, change in BODIES.items() if not changed(sources(), change)]
    print(f"{len(BODIES)} wrong bodies of the C, {len(wrong)} can't be made{': ' + ', '.join(wrong) if wrong else ''}")
    return 1 if wrong else 0


def main() -> None:
    if sys.argv[1:] == ["--check"]:
        sys.exit(check())
    library, out, names = Path(sys.argv[1]), Path(sys.argv[2]), sys.argv[3:]
    out.mkdir(parents=True, exist_ok=True)
    bench = Bench(library, out)
    if names == ["--planted"]:
        sys.exit(verdicts(bench, PLANTED) != ["MISSED", "CANNOT BE MADE"])
    if found := bench.met_by(bench.body(None) or []):
        sys.exit(f"bodies: the right body fails {found[0]}: {found[1]}")
    bodies = {name: BODIES[name] for name in names or BODIES}
    missed = len(verdicts(bench, bodies))
    print(f"bodies: {len(bodies) - missed} of {len(bodies)} wrong bodies are met")
    sys.exit(1 if missed else 0)


if __name__ == "__main__":
    os.environ.setdefault("ASAN_OPTIONS", "detect_leaks=1")
    main()
