#!/usr/bin/env python3
"""Prints how many nanoseconds a unification, a match and a comparison of terms of 10 to 1,000 symbols take, and the
inferences of a pair of clauses.

It belongs to no gate. Build the programs first, by `rt run` in the crates whose names end in `_bench`.
"""
import subprocess
import sys

from timing import built_program


def main():
    for crate in ("unify_bench", "order_bench", "superposition_bench"):
        program = built_program(crate)
        if program is None:
            sys.exit(f"build the program first: rt run in crates/{crate}")
        subprocess.run([str(program), "--time"], check=True)


if __name__ == "__main__":
    main()
