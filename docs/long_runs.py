#!/usr/bin/env python3
"""Runs plans on 8 workers very often, and says whether all runs ended and whether their memory grew.

usage: python3 docs/long_runs.py PROGRAM [--runs 1000] [--seed 1] [--seconds 60]

PROGRAM is crates/trinorun/out/trinorun, or what docs/native.py makes. There are so many runs of a plan of groups in 16
drivers, of which every second one has a row that divides by zero, at another place each time; as many in which one growth of
memory, at a random place, is refused (by the shim of docs/refused.py); and as many of these over the join of docs/stress.py,
whose left sides wait for the right one. A run has to end in time: with its result, or with status 6 and its line and no output,
or, where memory was refused, with status 1, its line and no output. At its end the program holds no more blocks of memory than
any other run does, and the most memory that it took is told for each hundred runs: the last hundred may take a tenth more than
the first. What breaks this is told, and the exit status is then 1."""
import argparse
import collections
import os
import random
import subprocess
import sys
import tempfile
import time

sys.dont_write_bytecode = True
import refused
import stress
import worked

ROWS = 400
# Two tasks of five drivers that scan, two that group with two that fetch, and one with its own that fetches: 16.
SHAPE = "--tasks 2 --drivers 5 --workers 8 --split 10 --page 5 --quantum 7"
DIVIDED = worked.projected([{"col": 0}, worked.call("/", worked.lit("60"), {"col": 1})], worked.scan(5, worked.GV), 6)
PLAN = worked.groups_over_hash(DIVIDED)
FAILED = worked.Work("failing", PLAN, {}, status=6, line="expression failed 2 at node 6")


def rows(zero_at):
    return [(n % 7, 0 if n == zero_at else n % 6 + 1) for n in range(ROWS)]


def work_of(zero_at):
    """The plan over rows of which one divides by zero, or none."""
    numbers, sums = collections.Counter(), collections.Counter()
    for group, value in rows(zero_at):
        numbers[group] += 1
        sums[group] += 60 // value if value else 0
    table = "g,v\n" + "".join(f"g{group},{value}\n" for group, value in rows(zero_at))
    text = "g,n,s\n" + "".join(f"g{it},{numbers[it]},{sums[it]}\n" for it in range(7))
    if zero_at is None:
        return worked.Work("groups", PLAN, {"t": table}, SHAPE, [text])
    return worked.Work("groups that fail", PLAN, {"t": table}, SHAPE, status=6, line=FAILED.line[len("trinorun: "):-1].decode())


def joined():
    """The plan of docs/stress.py, over rows of which none fails."""
    keys = [n % 7 + 1 for n in range(70)]
    table = "k\n" + "".join(f"{key}\n" for key in keys)
    text = "k,r\n" + "".join(f"{left},{left}\n" for left in keys for right in keys if left == 6 // right)
    words = "--tasks 4 --drivers 2 --split 10 --page 5 --quantum 7 --workers 8"
    return worked.Work("join", stress.plan(), {"l": table, "r": table}, words, [text])


class Series:
    """Runs one after the other, and what came of them."""

    def __init__(self, name, shim, program, seconds):
        self.name, self.shim, self.program, self.seconds = name, shim, program, seconds
        self.came, self.most, self.blocks, self.bad, self.slowest = collections.Counter(), [], set(), 0, 0.0

    def run(self, work, number):
        start = time.monotonic()
        try:
            status, out, err, counts = self.shim.run(work.command(self.program), "grow", number, self.seconds)
        except subprocess.TimeoutExpired:
            self.tell(f"a run of {work.name} with growth {number} refused did not end in {self.seconds} s")
            return
        self.slowest = max(self.slowest, time.monotonic() - start)
        self.came[status] += 1
        self.blocks.add(counts["live"])
        self.most.append(counts["most"])
        if not (refused.is_told(work, "grow", status, out, err) if number else work.is_answer(status, out, err)):
            self.tell(f"{work.name} with growth {number} refused ended with {status}, {out[:80]!r}, told {err[:100]!r}")

    def tell(self, what):
        self.bad += 1
        print(what, flush=True)

    def end(self):
        hundreds = [max(self.most[at:at + 100]) for at in range(0, len(self.most), 100)]
        if hundreds and hundreds[-1] > 1.1 * hundreds[0] or len(self.blocks) > 1:
            self.tell("memory grew")
        counts = ", ".join(f"{self.came[it]} with {it}" for it in sorted(self.came))
        print(f"{self.name}: by status {counts}; the slowest took {self.slowest:.2f} s; blocks held at the end: "
              f"{sorted(self.blocks)}; most memory of each hundred, in kB: {hundreds}", flush=True)
        return self.bad


def run_refused(work, shim, program, given, chance):
    """Runs with one growth refused, and gives how many ended otherwise than they may."""
    work.write()
    growths = shim.run(work.command(program), "grow", 0, given.seconds)[3]["grow"]
    series = Series(f"{work.name}, one growth of about {growths} refused", shim, program, given.seconds)
    for _ in range(given.runs):
        series.run(work, chance.randint(1, growths))
    return series.end()


def main():
    options = argparse.ArgumentParser(usage=__doc__)
    options.add_argument("program")
    options.add_argument("--runs", type=int, default=1000)
    options.add_argument("--seed", type=int, default=1)
    options.add_argument("--seconds", type=int, default=60)
    given = options.parse_args()
    program, chance = os.path.abspath(given.program), random.Random(given.seed)
    with tempfile.TemporaryDirectory() as folder:
        os.chdir(folder)
        shim = refused.Shim(folder)
        good, series = work_of(None), Series("every second one fails", shim, program, given.seconds)
        for run in range(given.runs):
            work = work_of(run % ROWS) if run % 2 else good
            work.write()
            series.run(work, 0)
        bad = series.end()
        for work in good, joined():
            bad += run_refused(work, shim, program, given, chance)
    return 1 if bad else 0


if __name__ == "__main__":
    sys.exit(main())
