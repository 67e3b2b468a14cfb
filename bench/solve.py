#!/usr/bin/env python3
"""Times the worklist and the workers on systems of links.

Usage: bench/solve.py [--sizes LINKS,..] [--kinds NAME,..] [--workers COUNT,..] [PROGRAM]
       (default: 1000,10000,100000,1000000, but cones up to 100000 alone; chains,stars,shallow,cone;
       1,2,4,8; crates/gu_solve_main/out/gu_solve_main, as `rt run` in that crate builds it)

With the defaults it takes two to three minutes on a machine that has nothing else to do. Cones of a
million links, which have to be asked for, take some minutes more.

Prints, for each kind of system and each size, how many joins per link two workers ask for, and the
seconds by the clock of one solution: by the worklist, and by each number of workers. A time is that
of further turns: a run that solves the system more often, less a run that solves it once, so that
neither the process nor making the system counts.

The worklist tells nobody how often it applies a link, so the joins of workers are counted, through
their gate. In chains and stars a link asks for one join each time that it is applied, so there the
joins are the applications. In the cone a link that goes through a field asks each time for one join
per class that it reaches; how many these are on average is printed as the reach. In the shallow cone
each link reaches one class, or one and those directly below it; but a link is applied again for each
class below its own, however far, whose field rises. The worklist begins with every link,
so it applies each once more, at first, than workers do.
"""
import argparse
import os
import sys

from measure import built, run

# The kinds, and up to how many links each is timed where no sizes are asked for.
KINDS = {"chains": 1_000_000, "stars": 1_000_000, "shallow": 100_000, "cone": 100_000}
SIZES = (1_000, 10_000, 100_000, 1_000_000)
# How many joins all further turns ask for together, about, and how many runs the fastest is of.
WORK = 1_000_000
RUNS = 3
# How many further turns are timed at least.
LEAST = 4
# The classes of the cone, and how many stand in a chain below the first one.
CLASSES, CHAIN = 1_000, 63


def fastest(command):
    """The run of a command, of some, that took least by the clock."""
    best = min((run(command, b"") for _ in range(RUNS)), key=lambda ran: ran.clock)
    if best.status != 0:
        sys.exit(f"{' '.join(command)}: status {best.status}")
    return best


def seconds(program, words, kind, links, asked):
    """The seconds by the clock of one solution, which asks for so many joins."""
    more = max(LEAST, int(WORK / asked))
    once = fastest([program, *words, "1", kind, str(links)])
    often = fastest([program, *words, str(1 + more), kind, str(links)])
    return max(often.clock - once.clock, 0) / more


def joins(program, kind, links):
    """How many joins two workers ask for, per link of the system that was made."""
    words = fastest([program, "joins", "2", kind, str(links)]).output.split()
    return int(words[words.index(b"joins") - 1]) / max(int(words[0]), 1)


def reach():
    """At or below how many classes a link of the cone goes, on average."""
    below = [CLASSES] + [min(CHAIN - (index - 1) % CHAIN, CLASSES - index) for index in range(1, CLASSES)]
    return sum(below) / CLASSES


def sizes(asked, kind):
    """How many links a kind is timed with: what is asked for, or the defaults that suit the kind."""
    return map(int, asked.split(",")) if asked else [size for size in SIZES if size <= KINDS[kind]]


def main():
    parser = argparse.ArgumentParser()
    parser.add_argument("--sizes")
    parser.add_argument("--kinds", default=",".join(KINDS))
    parser.add_argument("--workers", default="1,2,4,8")
    parser.add_argument("program", nargs="?", default=built("gu_solve_main"))
    asked = parser.parse_args()
    crews = asked.workers.split(",")
    print(f"{os.cpu_count()} processors; reach of the cone {reach():.1f}")
    heads = "".join(f"{crew + ' workers':>12}" for crew in crews)
    print(f"{'kind':8}{'links':>9}{'joins/link':>12}{'worklist':>12}{heads}")
    for kind in asked.kinds.split(","):
        for links in sizes(asked.sizes, kind):
            each = joins(asked.program, kind, links)
            ways = [["close"]] + [["solve", crew] for crew in crews]
            row = [seconds(asked.program, way, kind, links, links * each) for way in ways]
            spent = "".join(f"{time:12.6f}" for time in row)
            print(f"{kind:8}{links:9}{each:12.2f}{spent}", flush=True)


if __name__ == "__main__":
    main()
