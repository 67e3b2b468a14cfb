#!/usr/bin/env python3
"""Looks whether other tools accept what the program writes.

Usage: bench/accepts.py [PROGRAM [WORD..]]   (default: crates/wasm_gufa_main/out/wasm_gufa_main; with
       crates/gu_steps_main/out/gu_steps_main copy, what the reader and the writer make)

Each module of the kinds below (bench/modules.py), of about 20,000 bytes, is given to the program, and
its output to `wasm-validate` of wabt and `wasm-opt` of binaryen. Prints each answer, and ends with
status 1 where one refuses. A tool that is not installed is passed over. Only modules whose format
those tools of Debian know are asked for: they read structures, arrays and typed references in older
formats.
"""
import shutil
import subprocess
import sys
import tempfile

import modules
from measure import built, run

SIZE = 20_000
KINDS = {
    "many small functions": modules.many_small_functions,
    "one huge function": modules.one_huge_function,
    "many blocks": modules.many_blocks,
    "deep nesting": modules.deep_nesting,
    "nested switch": modules.nested_switch,
    "dead code": modules.dead_code,
    "data segments": modules.data_segments,
}
TOOLS = {
    "wasm-validate": ["wasm-validate", "--enable-all"],
    "wasm-opt": ["wasm-opt", "--all-features", "-o", "/dev/null"],
}


def accepts(tool, text):
    with tempfile.NamedTemporaryFile(suffix=".wasm") as file:
        file.write(text)
        file.flush()
        ran = subprocess.run([*TOOLS[tool], file.name], capture_output=True, text=True)
    return ran.returncode == 0, (ran.stderr or ran.stdout).strip()[:300]


def main():
    command = sys.argv[1:] or [built("wasm_gufa_main")]
    tools = [tool for tool in TOOLS if shutil.which(tool)]
    for tool in sorted(set(TOOLS) - set(tools)):
        print(f"{tool} is not installed")
    refused = 0
    for kind, maker in KINDS.items():
        ran = run(command, maker(SIZE))
        if ran.status != 0:
            print(f"{kind}: the program refuses it, status {ran.status}")
            continue
        for tool in tools:
            holds, said = accepts(tool, ran.output)
            refused += not holds
            print(f"{kind}: {tool} " + ("accepts it" if holds else f"refuses it: {said}"))
    sys.exit(refused != 0)


if __name__ == "__main__":
    main()
