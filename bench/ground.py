#!/usr/bin/env python3
"""Times the built prover on ground problems, beside SPASS and eprover where they are installed.

It belongs to no gate. Build the program first: `rt run` in crates/spass.
"""
import sys

from problems import chain, groups, pigeons, random_clauses
from timing import built_program, measure, others, peak_megabytes

SECONDS = 60


def row(title, dfg, tptp, command):
    ours = measure(command, dfg, SECONDS)
    if ours is None:
        print(f"{title}: no answer within {SECONDS} s")
        return
    first = ours[0].splitlines()[0] if ours[0] else "(nothing)"
    memory = peak_megabytes(command, dfg)
    line = f"{title}: {first} {ours[1]:.3f} s, {memory:.0f} MB"
    for name, other, text in others(dfg, tptp):
        theirs = measure(other, text, SECONDS)
        line += f"; {name} {theirs[1]:.3f} s, ratio {ours[1] / theirs[1]:.2f}" if theirs else f"; {name} no answer"
    print(line, flush=True)


def main():
    program = built_program()
    if program is None:
        sys.exit("build the program first: rt run in crates/spass")
    for links in (100, 300, 1500):
        row(f"chain of {links} links", *chain(links), [str(program), "prove"])
    row("200 clauses with a model", *groups(50), [str(program), "prove"])
    for count, holes in ((4, 3), (5, 4), (7, 7)):
        row(f"{count} pigeons in {holes} holes", *pigeons(count, holes), [str(program), "prove"])
    row("5 pigeons in 4 holes, no splits", *pigeons(5, 4), [str(program), "prove", "--splits", "0"])
    row("6 pigeons in 5 holes, 5,000 splits", *pigeons(6, 5), [str(program), "prove", "--splits", "5000"])
    row("6 pigeons in 5 holes, 1,000 splits", *pigeons(6, 5), [str(program), "prove"])
    for rounds in ("300", "1000", "10000"):
        title = f"500 random clauses of three literals, {rounds} rounds"
        row(title, *random_clauses(500, 100, 1), [str(program), "prove", "--rounds", rounds])


if __name__ == "__main__":
    main()
