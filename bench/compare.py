"""Runs a program on scripts, and compares what it writes with what a plain reading of the rules replies: for `.ci/keep` and
`.ci/lists`. The first script that differs is told, and kept with both transcripts."""

import argparse
import glob
import os
import subprocess
import sys
import tempfile

TOP = os.path.dirname(os.path.dirname(os.path.abspath(__file__)))
PROGRAM = f"{TOP}/crates/store_program/out/store_program"
# How long a run may take.
SECONDS = 120


def arguments(scripts, size):
    """What the command line asks for, where it says nothing else: so many drawn scripts, of so many lines at most."""
    parser = argparse.ArgumentParser()
    parser.add_argument("--scripts", type=int, default=scripts)
    parser.add_argument("--first", type=int, default=0)
    parser.add_argument("--size", type=int, default=size)
    parser.add_argument("--program", default=PROGRAM)
    return parser.parse_args()


def examples():
    """The examples, by their names."""
    for path in sorted(glob.glob(f"{TOP}/examples/*.txt")):
        with open(path, "rb") as file:
            yield os.path.basename(path), file.read()


def shown(line):
    """Some of the bytes of a line."""
    return repr(line if len(line) <= 100 else line[:97] + b"...")


def keep(script, wanted, written):
    """Keeps a script and both its transcripts. Where."""
    folder = tempfile.mkdtemp(prefix="script-")
    for file, kept in (("script", script), ("wanted", wanted), ("written", written)):
        with open(f"{folder}/{file}", "wb") as out:
            out.write(kept)
    return folder


def difference(exchanges, written):
    """The first line at which replies differ, and how."""
    replies = written.split(b"\n")[:-1]
    for (number, line, wanted), reply in zip(exchanges, replies):
        if wanted != reply:
            return f"line {number}, {shown(line)}: {shown(reply)} in place of {shown(wanted)}"
    return f"{len(replies)} replies in place of {len(exchanges)}, or none ends the text"


def fault_of(program, script, exchanges):
    """What is wrong of a run, or `None`; what it should have written, and what it wrote."""
    wanted = b"".join(reply + b"\n" for _, _, reply in exchanges or [])
    try:
        ran = subprocess.run([program, "script"], input=script, capture_output=True, timeout=SECONDS, check=False)
    except subprocess.TimeoutExpired:
        return f"it took longer than {SECONDS} seconds", wanted, b""
    status = 2 if exchanges is None else 0
    if ran.stdout != wanted:
        return difference(exchanges or [], ran.stdout), wanted, ran.stdout
    if ran.returncode != status or ran.stderr:
        return f"status {ran.returncode} in place of {status}, and on standard error {ran.stderr[:200]!r}", wanted, ran.stdout
    return None, wanted, ran.stdout


def compare(word, program, scripts):
    """Compares scripts, each with its name and the lines that have a reply by the rules. It ends with status 1 where one differs."""
    if not os.access(program, os.X_OK):
        sys.exit(f"the gate built no program: {program}")
    count = lines = 0
    for name, script, exchanges in scripts:
        fault, wanted, written = fault_of(program, script, exchanges)
        if fault is not None:
            print(f"{name}, kept in {keep(script, wanted, written)}: {fault}")
            sys.exit(1)
        count += 1
        lines += wanted.count(b"\n")
    print(f"{word}: {count} scripts with {lines} replies, which are those of the plain reading")
