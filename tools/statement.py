#!/usr/bin/env python3
"""Says in dist/PROOF.json what was proved of the files in dist/: an in-toto statement, without a date, that the gate compares.

usage: statement.py                 writes it, of what build.py has proved (dist/update.sh calls this)
       statement.py --of LOG..      writes it, of what runs of `rt ci` have proved and `tools/wrong.py --promises` has tried, whose outputs
                                    these are, the last one last
       statement.py --check LOG..   whether it says what these outputs say; of a crate that the last run of `rt ci` kept from an earlier
                                    one on the same machine it compares the sums of the sources alone, and says how many these are
"""

from __future__ import annotations

import glob
import hashlib
import json
import os
import re
import subprocess
import sys
from pathlib import Path
from typing import Callable, Dict, Iterable, List, Mapping, Sequence, Set, Union

TOP = os.path.dirname(os.path.dirname(os.path.realpath(__file__)))
sys.dont_write_bytecode = True
sys.path.insert(0, TOP)
from build import FOR_C  # noqa: E402

MADE = f"{TOP}/dist/PROOF.json"
# What of a verdict is said of a crate, by the words that stand there. Axioms are C functions whose contracts are taken as written.
TOLD = {"functions": int, "axioms": int, "may-wait": int, "may-abort": int}
# A wrong body that was refused, as `rt ci` and as tools/wrong.py says it.
REFUSED = re.compile(r"^(?:rt: )?must-fail (\w+/\S+)\.edit: refused, as it must be|^(\w+/\S+): refused: ", re.M)


def text_of(path: str) -> str:
    return Path(path).read_text(encoding="utf-8", errors="replace")


def sums(path: str) -> List[List[str]]:
    return [line.split("  ", 1) for line in text_of(path).splitlines()]


def bodies() -> Set[str]:
    """The wrong bodies that the gate tries: those of must-fail/, and those of wrong/ that name the promise which they break."""
    found = glob.glob(f"{TOP}/crates/*/must-fail/*.edit")
    found += [it for it in glob.glob(f"{TOP}/crates/*/wrong/*.edit") if re.search("^# promise: ", text_of(it), re.M)]
    return {f"{it.split('/')[-3]}/{os.path.basename(it)[:-len('.edit')]}" for it in found}


def verdict(text: str) -> Dict[str, str]:
    """The words of the last verdict in what rattle printed, which must be that the crate is proved."""
    return dict(re.findall(r"\b([a-z-]+)=(\S+)", re.findall(r"^logic=proved .*", text, re.M)[-1]))


def built(crate: str) -> Dict[str, str]:
    """What build.py kept of the proof of a crate."""
    return verdict(text_of(f"{TOP}/crates/{crate}/out/build.log"))


def statement(proof_of: Callable[[str], Mapping[str, str]]) -> Dict[str, object]:
    """The statement. `proof_of` tells the verdict on a crate."""
    crates: List[Dict[str, object]] = []
    functions = 0
    used: Set[str] = set()
    logics: Set[str] = set()
    for digest, line in sums(f"{TOP}/dist/SOURCES"):
        if "/" not in line:
            name = line.partition(":")[0].partition(" ")[0]
            used.update(line.partition(":")[2].split())
            words = proof_of(name)
            logics.add(words["sum"])
            told = {word: kind(words[word]) for word, kind in TOLD.items() if word in words}
            functions += int(words["functions"])
            crates.append({"name": name, "sources": {"sha256": digest}, **told})
    (logic,), ours = logics, {it["name"] for it in crates}
    c_files = [{"name": name, "sources": {"sha256": digest}} for digest, name in sums(f"{TOP}/dist/SOURCES") if "/" in name]
    return {
        "_type": "https://in-toto.io/Statement/v1",
        "subject": [{"name": name, "digest": {"sha256": digest}} for digest, name in sums(f"{TOP}/dist/SHA256")],
        "predicateType": "tag:wasmloop,2026:proof/1",
        "predicate": {
            "version": re.findall(r'#define WASMLOOP_VERSION "(.*)"', text_of(f"{TOP}/capi/include/wasmloop.h"))[0],
            "sources": {"sha256": hashlib.sha256(text_of(f"{TOP}/dist/SOURCES").encode()).hexdigest()},
            "prover": {"name": "rattle", "logic": logic},
            "functions": functions,
            "editsRefused": len(bodies()),
            "promise": "README.md: What it promises",
            "trusted": "docs/PROOFS.md: What is only tested, What is neither, What is trusted",
            "crates": crates,
            "librariesOfTheKit": sorted(it for it in used if it not in ours),
            "notProved": c_files,
        },
    }


def parts_of(log: str) -> Dict[str, str]:
    return {name: part for name, part in re.findall(r"^== (\w+)\n(.*?)(?=^== |\Z)", log, re.M | re.S) if "\nlogic=proved " in part}


def kept_in(log: str) -> List[str]:
    return re.findall(r"^rt: (\w+) is kept: ", log, re.M)


def as_stated() -> Dict[str, Dict[str, str]]:
    """The verdicts that the statement has."""
    made = json.loads(text_of(MADE))["predicate"]
    return {it["name"]: {"sum": made["prover"]["logic"], **{word: str(it[word]) for word in TOLD if word in it}} for it in made["crates"]}


def runs_of_rt(paths: Iterable[str]) -> List[str]:
    return [it for it in map(text_of, paths) if re.search(r"^\d+ passed, \d+ failed$", it, re.M)]


def gate(paths: Sequence[str], known: Mapping[str, Mapping[str, str]]) -> Callable[[str], Mapping[str, str]]:
    """What the outputs tell of a crate's proof; `known` are the verdicts on crates that the last run of `rt ci` kept. Ends where not every wrong
    body was refused that the gate tries, or something failed in that run."""
    logs, runs = [text_of(it) for it in paths], runs_of_rt(paths)
    refused = {one or other for log in logs if log in runs[-1:] or log not in runs for one, other in REFUSED.findall(log)}
    lost = sorted(bodies() - refused)
    if lost or not runs or not re.search(r"^[1-9]\d* passed, 0 failed$", runs[-1], re.M):
        sys.exit(f"{', '.join(paths)}: {len(lost)} wrong bodies not refused {lost[:3]}, or no last line that says that nothing failed")
    found = {name: verdict(part) for log in logs for name, part in parts_of(log).items()}
    return lambda crate: built(crate) if crate in FOR_C else found[crate] if crate in found else known[crate]


def write(made: str) -> int:
    with open(MADE, "w", encoding="utf-8") as file:
        file.write(made)
    return 0


def text(proof_of: Callable[[str], Mapping[str, str]]) -> str:
    return json.dumps(statement(proof_of), indent=1) + "\n"


def check(paths: Sequence[str]) -> Union[int, str]:
    kept = kept_in("".join(runs_of_rt(paths)[-1:]))
    made = text(gate(paths, {name: words for name, words in as_stated().items() if name in kept}))
    if text_of(MADE) != made:
        sys.stdout.write(subprocess.run(["diff", MADE, "-"], input=made, text=True, stdout=subprocess.PIPE, check=False).stdout)
        return "dist/PROOF.json does not say what this run has proved"
    print("dist/PROOF.json says what this run has proved" + (f"; {len(kept)} crates were proved by an earlier run on this machine" if kept else ""))
    return 0


def main(words: Sequence[str]) -> Union[int, str]:
    if words[:1] == ["--check"]:
        return check(words[1:])
    return write(text(gate(words[1:], {}) if words[:1] == ["--of"] else built))


if __name__ == "__main__":
    sys.exit(main(sys.argv[1:]))
