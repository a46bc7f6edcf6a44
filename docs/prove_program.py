#!/usr/bin/env python3
"""Proves the program and every library under it, as the gate does, and leaves it in crates/trinorun/out/trinorun.

usage: python3 docs/prove_program.py

At the top of the repository. It runs `rt ci` on a copy of the tree that has no test crates and no must-fail edits, so that
libraries are proved side by side, on as many processors as there are with 5 GB of free memory for each (RT_JOBS says another
number). What was proved is kept beside the kit: a later run, and the gate, prove again only what changed and what stands on it. The exit status
is that of `rt ci`."""
import os
import shutil
import subprocess
import sys
import tempfile

BUILT = "crates/trinorun/out/trinorun"


def is_test_crate(line):
    return line.split(":")[0].split()[-1:] == ["staticlib"]


def copy_without_tests(folder):
    """Copies what proves the program."""
    lines = [line for line in open("crates.txt") if line.split("#")[0].strip()]
    with open(f"{folder}/crates.txt", "w") as file:
        file.writelines(line for line in lines if not is_test_crate(line))
    shutil.copy("HANDLES", folder)
    for line in lines:
        name = line.split(":")[0].split()[0]
        if not is_test_crate(line):
            shutil.copytree(f"crates/{name}", f"{folder}/crates/{name}", ignore=shutil.ignore_patterns("must-fail", "out"))


def jobs():
    free = next(int(line.split()[1]) for line in open("/proc/meminfo") if line.startswith("MemAvailable"))
    return str(max(1, min(os.cpu_count(), free // 5_000_000)))


def main():
    with tempfile.TemporaryDirectory(prefix="zelgumber-") as folder:
        copy_without_tests(folder)
        status = subprocess.run(["rt", "ci"], cwd=folder, env={"RT_JOBS": jobs(), **os.environ}).returncode
        if status == 0:
            os.makedirs(os.path.dirname(BUILT), exist_ok=True)
            shutil.copy(f"{folder}/{BUILT}", BUILT)
            print(f"the program: {BUILT}")
        return status


if __name__ == "__main__":
    sys.exit(main())
