"""Runs a program on a text and measures the time and the memory that it took."""
import os
import resource
import shutil
import subprocess
import tempfile
import time
from pathlib import Path

TOP = Path(__file__).resolve().parent.parent


def built_program(name="spass"):
    """The path of a built program: made by `rt run` in its crate's folder."""
    found = sorted((TOP / "crates" / name / "out").rglob(name), key=lambda p: p.stat().st_mtime)
    found = [p for p in found if p.is_file() and os.access(p, os.X_OK)]
    return found[-1] if found else None


def measure(command, text, seconds):
    """What the command prints for the text, and the seconds it took; none where it is cut off."""
    end = timed(command, text, seconds)
    return end and (end[0], end[2])


def ended(command, text, seconds):
    """What the command prints for the text, and its status, below 0 for a signal; none where it is cut off."""
    end = timed(command, text, seconds)
    return end and (end[0], end[1])


def timed(command, text, seconds):
    """What the command prints for the text, its status, and the seconds it took; none where it is cut off."""
    with tempfile.NamedTemporaryFile("w+", suffix=".txt") as given:
        given.write(text)
        given.flush()
        given.seek(0)
        begin = time.monotonic()
        child = subprocess.Popen(command, stdin=given, stdout=subprocess.PIPE, stderr=subprocess.DEVNULL)
        try:
            out, _ = child.communicate(timeout=seconds)
        except subprocess.TimeoutExpired:
            child.kill()
            child.communicate()
            return None
        taken = time.monotonic() - begin
    return out.decode(errors="replace"), child.returncode, taken


def peak_megabytes(command, text):
    """The largest memory that the command held for the text, in megabytes."""
    with tempfile.NamedTemporaryFile("w+", suffix=".txt") as given:
        given.write(text)
        given.flush()
        given.seek(0)
        child = os.fork()
        if child == 0:
            null = os.open(os.devnull, os.O_WRONLY)
            os.dup2(given.fileno(), 0)
            os.dup2(null, 1)
            os.dup2(null, 2)
            os.execvp(command[0], command)
        _, _, usage = os.wait4(child, 0)
        return usage.ru_maxrss / 1024


def others(dfg, tptp):
    """The other provers that are installed, each with the text that it reads."""
    known = [("SPASS", ["SPASS", "-Stdin", "-PGiven=0", "-PProblem=0"], dfg), ("eprover", ["eprover", "--auto", "--silent"], tptp)]
    return [(name, command, text) for name, command, text in known if shutil.which(command[0])]
