#!/usr/bin/env python3
"""Compares the tables of claims.md with the sources, and ends with status 1 where one of them says what isn't there.

A row names a public function, its clauses, the words of its clauses with the files that define them, and its own file. The
line `Edits:` above a table names all must-fail edits of the crate, the line's `Tests:` crates of tests. It needs no prover.
"""
import re
import sys
from pathlib import Path

ROOT = Path(__file__).resolve().parent.parent
ROW = re.compile(r"\| `(\w+)` \| (.*?) \| .* \| (.*?) \| `([\w/.]+)` \|$")
WORD = re.compile(r"`([\w']+)` \((?:(\w+): )?([\w/]+)\)")


def contract(lines, name):
    """The lines between the head of the public function and its body, None where there is no such function."""
    start = next((k for k, line in enumerate(lines) if re.match(rf"\s*pub (?:const )?fn {name}\b", line)), None)
    if start is None:
        return None
    end = next((k for k in range(start, len(lines)) if re.match(r"\s*\{", lines[k]) and "ensures" not in lines[k]), len(lines))
    return "\n".join(lines[start:end + 1])


def faults_of_row(crate, name, clauses, definitions, code):
    source = ROOT / "crates" / crate / code
    text = contract(source.read_text().splitlines(), name) if source.is_file() else None
    if text is None:
        return [f"{code} has no public function {name}"]
    faults = []
    if clauses != "its clause":
        faults += [f"{name} has no clause {c}" for c in re.findall(r"`(\w+)`", clauses)
                   if not re.search(rf"ensures\*? (?:unfolding\([^)]*\)\s*)?{c} ?\{{", text)]
    elif "ensures" not in text:
        faults.append(f"{name} has no clause")
    for word, other, file in WORD.findall(definitions):
        specs = ROOT / "crates" / (other or crate) / "specs" / (file + ".antt")
        defined = specs.is_file() and re.search(rf"^(?:\w+ )*{re.escape(word)}\b.*:", specs.read_text(), re.M)
        faults += [] if defined else [f"{name}: {word} isn't defined in {file} of {other or crate}"]
        faults += [] if re.search(rf"\b{re.escape(word)}(?!\w)", text) else [f"{name} doesn't speak of {word}"]
    return faults


def faults_of_line(crate, line):
    """What is wrong with a line `Edits: .. Tests: ..`."""
    named, _, tests = line.partition(" Tests: ")
    there = {edit.stem for edit in (ROOT / "crates" / crate / "must-fail").glob("*.edit")}
    named = set(re.findall(r"`(\w+)`", named))
    return ([f"edit {e} isn't named" for e in sorted(there - named)] + [f"no edit {e}" for e in sorted(named - there)]
            + [f"no crate {t}" for t in re.findall(r"`(\w+)`", tests) if not (ROOT / "crates" / t).is_dir()])


def main():
    crate, rows, faults = None, 0, []
    for line in (ROOT / "docs" / "claims.md").read_text().splitlines():
        head, row = re.match(r"### `(\w+)`$", line), ROW.match(line)
        if head:
            crate = head.group(1)
        elif row:
            rows += 1
            faults += [f"{crate}: {f}" for f in faults_of_row(crate, *row.groups())]
        elif line.startswith("| `"):
            faults.append(f"{crate}: not understood: {line[:60]}")
        elif line.startswith("Edits: "):
            faults += [f"{crate}: {f}" for f in faults_of_line(crate, line)]
    if rows == 0:
        faults.append("no claim was compared")
    print("\n".join(faults + [f"claims: {rows} compared, {len(faults)} wrong"]))
    return 1 if faults else 0


sys.exit(main())
