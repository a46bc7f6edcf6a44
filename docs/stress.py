#!/usr/bin/env python3
"""Runs a plan in which an expression fails many times on many workers, and says how the runs ended.

usage: python3 docs/stress.py PROGRAM [--runs 1000] [--workers 8] [--seconds 60]

PROGRAM is crates/trinorun/out/trinorun. Each run has a row, at another place each time, that divides by zero in the
right side of a join, whose left side waits for it, in one of 16 drivers. A run that does not end in so many seconds,
or that ends otherwise than with status 6, its one line and no output, is told, and the exit status is then 1."""
import argparse
import json
import os
import subprocess
import sys
import tempfile
import time

ROWS = 400


def scan(id, table, columns):
    return {"id": id, "op": "scan", "table": table, "columns": columns}


def plan():
    column = {"name": "k", "type": "bigint"}
    divided = {"call": "/", "args": [{"lit": "6", "type": "bigint"}, {"col": 0}]}
    join = {"id": 2, "op": "join", "kind": "INNER", "on": [[0, 0]], "left": scan(3, "l", ["k"]),
            "right": {"id": 4, "op": "remote", "fragment": 2}}
    return {
        "version": 1,
        "output": ["k", "r"],
        "tables": [{"name": "l", "columns": [column]}, {"name": "r", "columns": [column]}],
        "fragments": [
            {"id": 0, "placement": "SINGLE", "root": {"id": 1, "op": "remote", "fragment": 1}},
            {"id": 1, "placement": "SOURCE", "output": {"kind": "SINGLE"}, "root": join},
            {"id": 2, "placement": "SOURCE", "output": {"kind": "BROADCAST"},
             "root": {"id": 5, "op": "project", "columns": [divided], "input": scan(6, "r", ["k"])}},
        ],
    }


def table(zero_at):
    return "k\n" + "".join("0\n" if n == zero_at else f"{n % 7 + 1}\n" for n in range(ROWS))


def main():
    options = argparse.ArgumentParser(usage=__doc__)
    options.add_argument("program")
    options.add_argument("--runs", type=int, default=1000)
    options.add_argument("--workers", type=int, default=8)
    options.add_argument("--seconds", type=int, default=60)
    given = options.parse_args()
    program, bad, slowest, began = os.path.abspath(given.program), 0, 0.0, time.monotonic()
    with tempfile.TemporaryDirectory() as folder:
        os.chdir(folder)
        for name, text in (("p", json.dumps(plan())), ("l", table(-1))):
            with open(name, "w") as file:
                file.write(text)
        words = [program, "--plan", "p", "--tasks", "4", "--drivers", "2", "--split", "10", "--page", "5", "--quantum", "7",
                 "--workers", str(given.workers), "l=l", "r=r"]
        for run in range(given.runs):
            with open("r", "w") as file:
                file.write(table(run % ROWS))
            start = time.monotonic()
            try:
                done = subprocess.run(words, capture_output=True, timeout=given.seconds)
            except subprocess.TimeoutExpired:
                bad += 1
                print(f"run {run} did not end in {given.seconds} s")
                continue
            slowest = max(slowest, time.monotonic() - start)
            if (done.returncode, done.stdout, done.stderr) != (6, b"", b"trinorun: expression failed 2 at node 5\n"):
                bad += 1
                print(f"run {run} ended with {done.returncode}: {done.stdout[:80]!r} {done.stderr!r}")
    print(f"{given.runs} runs on {given.workers} workers in {time.monotonic() - began:.1f} s, the slowest in {slowest:.2f} s; "
          f"{bad} ended otherwise than they should")
    return 1 if bad else 0


if __name__ == "__main__":
    sys.exit(main())
