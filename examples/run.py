#!/usr/bin/env python3
"""Runs the built program on each example and compares what it prints, and its exit status.

The second line of an example NAME.dfg is a comment with the words and the status, as `% spass prove --rounds 1; status 2`, and
NAME.out has what must be printed. Answers that need no problem of their own are tried after them: an input that is too long, one
that can't be read, a full disk. `run.py PROGRAM` takes the program, with the words before its own if there are any (a loader).
It ends with status 1 where an answer is another one, or where no example was run.
"""
import os
import re
import subprocess
import sys
from pathlib import Path

FOLDER = Path(__file__).resolve().parent
MOST_BYTES = 16 * 1024 * 1024


def answer(command, words, source, sink=subprocess.PIPE):
    end = subprocess.run(command + words, stdin=source, stdout=sink, timeout=60, check=False)
    return end.stdout, end.returncode


def examples(command):
    """Yields name, answer and wanted answer of each file."""
    for problem in sorted(FOLDER.glob("*.dfg")):
        said = re.match(r"% .*\n% spass (.*); status (\d+)\n", problem.read_text())
        with problem.open("rb") as source:
            found = answer(command, said[1].split(), source)
        yield problem.name, found, (problem.with_suffix(".out").read_bytes(), int(said[2]))


def without_files(command):
    """The same for inputs that are no files here, and for an output that can't be written."""
    with subprocess.Popen(["head", "-c", str(MOST_BYTES + 1), "/dev/zero"], stdout=subprocess.PIPE) as zeros:
        yield "an input that is too long", answer(command, ["prove"], zeros.stdout), (b"Input too long.\n", 5)
    folder = os.open(FOLDER, os.O_RDONLY)
    yield "an input that can't be read", answer(command, ["prove"], folder), (b"Read fault.\n", 6)
    os.close(folder)
    with (FOLDER / "two_clauses.dfg").open("rb") as source, open("/dev/full", "wb") as full:
        yield "a full disk", answer(command, ["prove"], source, full), (None, 7)


def main():
    command, run, wrong = sys.argv[1:], 0, 0
    for cases in (examples, without_files):
        for name, found, wanted in cases(command):
            run += 1
            if found != wanted:
                wrong += 1
                print(f"{name}: {found}, not {wanted}")
    print(f"examples: {run} run, {wrong} wrong")
    return 1 if wrong or not run else 0


sys.exit(main())
