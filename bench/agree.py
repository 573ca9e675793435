#!/usr/bin/env python3
"""Draws ground problems and compares what the built prover answers with the answers of SPASS and eprover.

It belongs to no gate. Build the program first: `rt run` in crates/spass. `agree.py COUNT SEED` draws so many problems
(200) from the seed (1). It prints each on which two provers disagree and each on which this one ends by a signal or with
a status that the README doesn't list for a problem that fits, and ends with status 1 if there is one, or if no answer
was compared.
"""
import random
import sys

from problems import signed_problem
from timing import built_program, ended, measure, others

SECONDS = 20
OPTIONS = ([], ["--splits", "0"], ["--splits", "3"])
REFUTED = ("SPASS beiseite: Proof found.", "# SZS status Unsatisfiable")
COMPLETE = ("SPASS beiseite: Completion found.", "# SZS status Satisfiable")
# The statuses that a problem within the grammar may have: what was found, and whether the problem is refuted.
OURS = {0: ("Proof found.", True), 1: ("Completion found.", False), 2: ("Gave up", None), 8: ("Out of memory.", None)}


def drawn_term(source, constants, functions, depth):
    """A ground term that nests functions to this depth at most."""
    if not functions or depth == 0 or source.random() < 0.6:
        return source.choice(constants)
    name, arity = source.choice(functions)
    return f"{name}({','.join(drawn_term(source, constants, functions, depth - 1) for _ in range(arity))})"


def drawn_atom(source, constants, functions, predicates):
    name, arity = source.choice(predicates)
    if arity == 0:
        return name
    return f"{name}({','.join(drawn_term(source, constants, functions, 2) for _ in range(arity))})"


def drawn(source):
    """Clauses of one to four literals over few atoms, about as many as make the set turn from satisfiable to not.

    The atoms are of one to three constants, up to two functions and one to four predicates, of several arities.
    """
    constants = [f"c{i}" for i in range(source.randint(1, 3))]
    functions = [(f"f{i}", source.randint(1, 3)) for i in range(source.randint(0, 2))]
    predicates = [(f"p{i}", source.randint(0, 3)) for i in range(source.randint(1, 4))]
    wanted = source.randint(2, 12)
    atoms = sorted({drawn_atom(source, constants, functions, predicates) for _ in range(wanted)})
    clauses = []
    for _ in range(source.randint(1, 5 * len(atoms))):
        chosen = source.sample(atoms, min(source.choice((1, 2, 3, 3, 3, 4)), len(atoms)))
        clauses.append([(atom, source.random() < 0.5) for atom in chosen])
    return signed_problem([(c, 0) for c in constants] + functions, predicates, clauses)


def our_answer(command, text):
    """Whether the program refutes the text, None where it gives up or is cut off; and what is wrong with its end, if anything."""
    end = ended(command, text, SECONDS)
    if end is None:
        return None, None
    out, status = end
    if status < 0:
        return None, f"ended by signal {-status}"
    if status not in OURS:
        return None, f"ended with status {status}: {out[:200]!r}"
    first, answer = OURS[status]
    return (answer, None) if out.startswith(first) else (None, f"status {status} with the text {out[:200]!r}")


def their_answer(command, text):
    """Whether the command refutes the text; None where it gives up or is cut off."""
    told = measure(command, text, SECONDS)
    lines = told[0].splitlines() if told else []
    if any(line in REFUTED for line in lines):
        return True
    return False if any(line in COMPLETE for line in lines) else None


def main():
    count, seed = (int(word) for word in (sys.argv[1:] + ["200", "1"][len(sys.argv) - 1:]))
    program = built_program()
    if program is None:
        sys.exit("build the program first: rt run in crates/spass")
    source = random.Random(seed)
    tally = {True: 0, False: 0, None: 0}
    compared = {}
    wrong = 0
    for number in range(1, count + 1):
        dfg, tptp = drawn(source)
        ours, fault = our_answer([str(program), "prove"] + source.choice(OPTIONS), dfg)
        if fault:
            wrong += 1
            print(f"problem {number}: {fault}\n{dfg}")
            continue
        tally[ours] += 1
        for name, command, text in others(dfg, tptp):
            theirs = their_answer(command, text)
            if ours is None or theirs is None:
                continue
            compared[name] = compared.get(name, 0) + 1
            if ours != theirs:
                wrong += 1
                print(f"problem {number}: {ours} here, {theirs} by {name}\n{dfg}")
    print(f"{count} problems: {tally[True]} refuted, {tally[False]} complete, {tally[None]} given up; {wrong} wrong")
    for name, answers in sorted(compared.items()):
        print(f"{answers} answers compared with those of {name}")
    if not compared:
        sys.exit("no answer was compared: is SPASS or eprover installed?")
    sys.exit(1 if wrong else 0)


if __name__ == "__main__":
    main()
