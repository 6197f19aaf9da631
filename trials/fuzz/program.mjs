// What the program says of a list of modules: `test_program`, which performs a list of commands in one process, takes them all at once.

import { spawnSync } from "node:child_process";

function command({ run, bytes }) {
    const file = `hex:${bytes.toString("hex")}`;
    return run ? `invoke ${file} g --fuel 10000000 --depth 128` : `check ${file}`;
}

/** A line of the program `test_program` for each module: of one that is run what `invoke .. g` prints, else what `check` prints. */
export function answers(rows, list) {
    const { stdout, status, stderr, error } = spawnSync(rows, [], {
        input: list.map(command).join("\n") + "\n",
        encoding: "utf8",
        maxBuffer: 1 << 30,
    });
    if (error) throw error;
    // A command is told by itself behind `$ `, then by what it prints, and by `= STATUS`.
    const told = stdout.split(/^\$ .*\n/m).slice(1).map((text) => text.split("\n")[0]);
    if (status !== 0 || told.length !== list.length) throw new Error(`rows: status ${status}, ${told.length} answers: ${stderr}`);
    return told;
}
