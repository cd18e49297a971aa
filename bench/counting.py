"""Counts the instructions of a run by valgrind. They are all but the same on a busy machine, where seconds aren't."""

import os
import re
import shutil
import subprocess
import tempfile


# Beyond these lengths the C library copies and clears by one instruction, which valgrind counts a byte each, and only on some
# machines: so it doesn't.
LENGTHS = ":".join(f"glibc.cpu.x86_rep_{what}_threshold={1 << 30}" for what in ("movsb", "stosb"))


def is_there():
    """Whether instructions can be counted here."""
    return shutil.which("valgrind") is not None


def instructions(program, path):
    """The instructions that a program takes on a script. Its environment is fixed, since the start of a run depends on it."""
    environment = {"PATH": os.defpath, "GLIBC_TUNABLES": LENGTHS}
    with tempfile.TemporaryDirectory() as folder:
        log = f"{folder}/log"
        words = [shutil.which("valgrind"), "--tool=callgrind", "--callgrind-out-file=/dev/null", f"--log-file={log}", program, "script"]
        with open(path, "rb") as script:
            subprocess.run(words, stdin=script, stdout=subprocess.DEVNULL, stderr=subprocess.DEVNULL, env=environment, check=False)
        with open(log, encoding="utf-8", errors="replace") as file:
            text = file.read()
    found = re.search(r"Collected : (\d+)", text)
    if found is None:
        raise RuntimeError(f"valgrind counted nothing of {program} on {os.path.basename(path)}:\n{text}")
    return int(found[1])
