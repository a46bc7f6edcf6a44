#!/usr/bin/env python3
"""Says how many files `rt ci` reads to sum up what each crate is made of, for the crates of crates.txt.

usage: python3 docs/gate_paths.py [CRATES]

The toolchain sums a crate's files and, anew for each library that its line names, those of that library, and so on. A file
is so read once for each path to it, twice for each library that is built, and by one thread of Python. The number grows
with the product of the lines, floor by floor. A `staticlib`, which nothing stands on, is not summed up. CRATES (20) says how many of the dearest are printed.
"""

import functools
import os
import sys


def uses_of(file):
    """The crates that each crate's line names."""
    lines = [it.split("#")[0].partition(":") for it in open(file) if it.partition("#")[0].strip()]
    found = {name.split()[0]: words.split() for name, _, words in lines}
    return {name: [it for it in words if it in found] for name, words in found.items()}


def files_of(crate):
    parts = [f"crates/{crate}/{part}" for part in ("src", "specs", "proofs")]
    return sum(len(files) for part in parts for _, _, files in os.walk(part))


def main(count):
    uses = uses_of("crates.txt")

    @functools.lru_cache(None)
    def reads(crate):
        return files_of(crate) + sum(reads(it) for it in uses[crate])

    kept = {line.partition(":")[0] for line in open("crates.txt") if " staticlib" not in line}
    libraries = [it for it in uses if it in kept and os.path.exists(f"crates/{it}/src/lib.rt")]
    print(f"{2 * sum(map(reads, libraries)):>14,}  files read in all")
    for crate in sorted(libraries, key=reads, reverse=True)[:count]:
        print(f"{2 * reads(crate):>14,}  {crate}")


if __name__ == "__main__":
    main(int(sys.argv[1]) if len(sys.argv) > 1 else 20)
