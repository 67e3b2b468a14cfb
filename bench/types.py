#!/usr/bin/env python3
"""Shows how interning types and subtype queries grow with the number of types.

Usage: bench/types.py [COUNT..]   (default: 1000 10000 100000 1000000)

Prints, for each number of types, the processor's seconds to read the module, to intern its types
and for 10,000,000 subtype queries, each less what comes before it: with all types in one recursion
group, and with each in a group of its own. Every type declares the one before it as its supertype,
but each 64th, so chains are as deep as is allowed, and no two types are alike. The program is
crates/gu_steps_main/out/gu_steps_main, as `rt run` in that crate builds it.
"""
import sys

from measure import built, fastest
from modules import types_in_groups_of_one, types_in_one_group

QUERIES = 10_000_000
RUNS = 3


def main():
    counts = [int(word) for word in sys.argv[1:]] or [1_000, 10_000, 100_000, 1_000_000]
    program = built("gu_steps_main")
    print("groups     types   reading  interning   queries")
    for name, maker in (("one", types_in_one_group), ("each", types_in_groups_of_one)):
        for count in counts:
            text = maker(count)
            if len(text) > 16_777_216:
                print(f"{name:6} {count:9}  is longer than the program reads")
                continue
            read = fastest(RUNS, [program, "read", "1"], text)
            interned = fastest(RUNS, [program, "types", "0"], text)
            asked = fastest(RUNS, [program, "types", str(QUERIES)], text)
            if asked.status != 0:
                sys.exit(f"{name} {count}: status {asked.status}")
            spent = (read.processor, interned.processor - read.processor, asked.processor - interned.processor)
            print(f"{name:6} {count:9}" + "".join(f"{seconds:10.3f}" for seconds in spent), flush=True)


if __name__ == "__main__":
    main()
