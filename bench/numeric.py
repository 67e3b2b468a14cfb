#!/usr/bin/env python3
"""Holds the integer operators against cases that an engine computed.

    bench/numeric.py CASES [PROGRAM]

Each line of CASES has an operator's name, its code, its operands and its result in hexadecimal, or `trap`. PROGRAM is
crates/gu_num_main/out/gu_num_main, as `rt run` builds it. Prints how many cases agree, and each that does not."""

import subprocess
import sys


def main():
    cases = sys.argv[1]
    program = sys.argv[2] if len(sys.argv) > 2 else "crates/gu_num_main/out/gu_num_main"
    with open(cases) as lines:
        rows = [line.split() for line in lines if line.strip() and not line.startswith("#")]
    asked = "".join(" ".join(row[1:-1]) + "\n" for row in rows)
    answers = subprocess.run([program], input=asked, capture_output=True, text=True, check=True).stdout.split("\n")
    wrong = [(row, answer) for row, answer in zip(rows, answers) if row[-1] != answer]
    for row, answer in wrong:
        print(" ".join(row), "but computed", answer)
    print(f"{len(rows) - len(wrong)} of {len(rows)} cases agree")
    return 1 if wrong or len(answers) != len(rows) + 1 else 0


if __name__ == "__main__":
    sys.exit(main())
