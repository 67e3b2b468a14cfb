#!/usr/bin/env python3
"""Times reading and writing by the clock, on one processor and on more.

Usage: bench/workers.py [--cores N] [--size BYTES] [--runs N] [--kinds NAME,..] [PROGRAM]
       (default: 4 processors, 16000000, 7 runs, many small functions and object code,
       crates/gu_steps_main/out/gu_steps_main, as `rt run` in that crate builds it; no more
       processors than there are)

Prints, for each kind of module (bench/modules.py), the milliseconds that reading and writing take on
one processor and on so many, and how many times as fast the latter is; how many times as much as one
alone so many programs at once do there, each on a processor of its own, which is as much as can be
hoped for; and which share of the work on so many processors the host of a virtual machine took away
meanwhile (`steal` in /proc/stat): the machine was at rest only where that is near 0. The runs take
turns, each time with another one alone, and the middle of them all counts: first for the first turn in
a process, whose memory nobody touched before, then for the turns behind it. What is dropped between
turns is left out.
"""
import argparse
import os
from concurrent.futures import ThreadPoolExecutor
from statistics import median

from measure import built, run
from modules import KINDS

STEPS = ("read", "write")
# How many turns a run has.
TURNS = 5


def taken():
    """How long all processors worked so far, and how long the host kept them from it."""
    with open("/proc/stat") as file:
        user, nice, system, _, _, irq, softirq, steal = map(int, file.readline().split()[1:9])
    return user + nice + system + irq + softirq, steal


def turns(program, step, text, cores):
    """The milliseconds of each turn of a step in one run."""
    ran = run([program, "clock", step, str(TURNS)], text, cores)
    if ran.status != 0:
        raise SystemExit(f"{program} refused the module with status {ran.status}")
    return [int(line) / 1e6 for line in ran.output.split()]


def at_once(program, step, text, cores):
    """The milliseconds of each turn of a step, for each of so many programs at once."""
    with ThreadPoolExecutor(cores) as pool:
        return list(pool.map(lambda index: turns(program, step, text, [index]), range(cores)))


def middle(runs):
    """The middle of the first turns, and of the further ones."""
    return median(ran[0] for ran in runs), median(time for ran in runs for time in ran[1:])


def measured(program, step, text, cores, times):
    """The middle of the turns on one processor, of those of so many programs at once, and of those
    on so many processors, from so many runs of each; and what share of the last ones was stolen."""
    alone, together, threads = [], [], []
    worked = stolen = 0
    for index in range(times):
        alone.append(turns(program, step, text, [index % cores]))
        together += at_once(program, step, text, cores)
        before = taken()
        threads.append(turns(program, step, text, cores))
        after = taken()
        worked += after[0] - before[0]
        stolen += after[1] - before[1]
    share = stolen / max(1, worked + stolen)
    return zip(middle(alone), middle(together), middle(threads)), share


def main():
    parser = argparse.ArgumentParser()
    parser.add_argument("--cores", type=int, default=4)
    parser.add_argument("--size", type=int, default=16_000_000)
    parser.add_argument("--runs", type=int, default=7)
    parser.add_argument("--kinds", default="many small functions,object code")
    parser.add_argument("program", nargs="?", default=built("gu_steps_main"))
    asked = parser.parse_args()
    cores = min(asked.cores, len(os.sched_getaffinity(0)))
    columns = f"{'1 ms':>8}{f'{cores} ms':>8}{'ratio':>7}{'at once':>9}{'stolen':>8}"
    print(f"{'kind':24}{'step':8}{'turn':9}{columns}")
    for kind in asked.kinds.split(","):
        text = KINDS[kind](asked.size)
        for step in STEPS:
            rows, share = measured(asked.program, step, text, cores, asked.runs)
            for turn, (alone, together, threads) in zip(("first", "further"), rows):
                print(
                    f"{kind:24}{step:8}{turn:9}{alone:8.1f}{threads:8.1f}{alone / threads:7.2f}"
                    f"{cores * alone / together:9.2f}{100 * share:7.0f}%",
                    flush=True,
                )


if __name__ == "__main__":
    main()
