"""Programs for what measures them: the proved one that makes one call many times, and the plain ones that run scripts."""

import os
import subprocess
import sys

BENCH = os.path.dirname(os.path.abspath(__file__))
CRATE = f"{os.path.dirname(BENCH)}/crates/store_bench"


def built():
    """Builds the program, and tells where it is."""
    words = open(f"{CRATE}/args").read().split()
    if subprocess.run(["rt", "run", "--", *words], cwd=CRATE, capture_output=True).returncode != 0:
        sys.exit("the proved program could not be built")
    return f"{CRATE}/out/store_bench"


def built_plain(name, folder):
    """Builds a plain program into a folder, by rustc at its highest level, and tells where it is."""
    program = f"{folder}/{name}"
    words = ["rustc", "--edition", "2021", "-C", "opt-level=3", "-o", program, f"{BENCH}/{name}.rs"]
    if subprocess.run(words, check=False).returncode != 0:
        sys.exit(f"bench/{name}.rs could not be built")
    return program
