#!/usr/bin/env python3
"""Runs `rt ci` where it is called and says what its processor minutes went to, by part and by crate.

usage: python3 docs/gate_parts.py [LOG]

To measure from nothing, run it at the top of a fresh clone, on a machine that does nothing else. What `rt ci` prints goes
to LOG (gate.log).

The sum is what /usr/bin/time would tell: user and system seconds of rt and all that it started. The parts are read
from /proc five times a second, by the words of each prover's command line, so that they miss up to a fifth of a
second of each; what is left of the sum stands under 'other' (rt itself, links, runs of tests and programs).
"""

import collections
import os
import re
import resource
import subprocess
import sys
import time

TICKS = os.sysconf("SC_CLK_TCK")


def provers():
    """The crate, the part and the processor seconds so far of each prover that runs, by its number and start."""
    for number in filter(str.isdigit, os.listdir("/proc")):
        try:
            words = open(f"/proc/{number}/cmdline", "rb").read().decode(errors="replace").split("\0")
            if not words[0].endswith("/rattle"):
                continue
            fields = open(f"/proc/{number}/stat").read().rpartition(")")[2].split()
        except OSError:
            continue
        seconds = (int(fields[11]) + int(fields[12])) / TICKS
        crate = words[words.index("--crate-name") + 1] if "--crate-name" in words else "-"
        yield (number, fields[19]), crate, part_of(words, number), seconds


def part_of(words, number):
    if "--test" in words:
        return "tests"
    if "--incremental" in words:
        over = words[words.index("--incremental") + 1]
        return "edits: what each crate's begin with" if over.endswith("/seed") else "edits"
    try:
        return "edits" if "/rt-edit-" in os.readlink(f"/proc/{number}/cwd") else "libraries and programs"
    except OSError:
        return "libraries and programs"


def main(log):
    seen, began = {}, time.time()
    with open(log, "w") as out:
        gate = subprocess.Popen(["rt", "ci"], stdout=out, stderr=subprocess.STDOUT)
        while gate.poll() is None:
            for key, crate, part, seconds in provers():
                seen[key] = crate, part, seconds
            time.sleep(0.2)
    used = resource.getrusage(resource.RUSAGE_CHILDREN)
    whole, parts, crates = used.ru_utime + used.ru_stime, collections.Counter(), collections.Counter()
    for crate, part, seconds in seen.values():
        parts[part] += seconds
        crates[crate, part] += seconds
    print(f"{whole / 60:.1f} processor minutes, {(time.time() - began) / 60:.1f} minutes by the clock, on {os.cpu_count()} processors")
    parts["other"] = whole - sum(parts.values())
    for part, seconds in parts.most_common():
        print(f"{seconds / 60:7.1f}  {part}")
    print("the dearest, in seconds:")
    for (crate, part), seconds in crates.most_common(40):
        print(f"{seconds:7.0f}  {crate}: {part}")
    with open(log) as it:
        print(re.sub(r"\n+$", "", it.read()).rpartition("\n")[2])
    return gate.returncode


if __name__ == "__main__":
    sys.exit(main(sys.argv[1] if len(sys.argv) > 1 else "gate.log"))
