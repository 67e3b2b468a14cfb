#!/usr/bin/env python3
"""Times reading, checking and writing, each by itself.

Usage: bench/steps.py [--cores N] [--sizes BYTES,..] [--kinds NAME,..] [PROGRAM]
       (default: 1 processor, 1000000,16000000, all kinds, crates/gu_steps_main/out/gu_steps_main,
       as `rt run` in that crate builds it)

Prints, for each kind of module (bench/modules.py) and each size, the megabytes of input that a
second of the processor reads, checks and writes, with the time on all processors added up, and the
greatest memory of a run that does this step once, as a multiple of the input. A step's time is that
of further turns: a run that does it more often, less a run that does it once, so that neither the
process nor what comes before the step counts.
"""
import argparse

from measure import built, fastest
from modules import KINDS

STEPS = ("read", "check", "write")
# How many bytes the further turns of a step go over, about, and how many runs the fastest is of.
WORK = 48_000_000
RUNS = 3


def speed(program, step, text, cores):
    """The megabytes a second of a step, and the memory of doing it once; None where it is refused."""
    more = max(2, WORK // len(text))
    once = fastest(RUNS, [program, step, "1"], text, cores)
    if once.status != 0:
        return None
    often = fastest(RUNS, [program, step, str(1 + more)], text, cores)
    spent = max(often.processor - once.processor, 1e-9)
    return more * len(text) / spent / 1e6, once.peak / len(text)


def main():
    parser = argparse.ArgumentParser()
    parser.add_argument("--cores", type=int, default=1)
    parser.add_argument("--sizes", default="1000000,16000000")
    parser.add_argument("--kinds", default=",".join(KINDS))
    parser.add_argument("program", nargs="?", default=built("gu_steps_main"))
    asked = parser.parse_args()
    heads = "".join(f"{step + ' MB/s':>13}{'memory':>8}" for step in STEPS)
    print(f"{'kind':24}{'bytes':>10}{heads}")
    for kind in asked.kinds.split(","):
        for size in map(int, asked.sizes.split(",")):
            text = KINDS[kind](size)
            row = ""
            for step in STEPS:
                found = speed(asked.program, step, text, asked.cores)
                row += f"{'refused':>21}" if found is None else f"{found[0]:13.0f}{found[1]:7.0f}x"
            print(f"{kind:24}{len(text):10}{row}", flush=True)


if __name__ == "__main__":
    main()
