#!/usr/bin/env python3
"""Runs worked plans with a program, and says which are answered otherwise than they should.

usage: python3 docs/worked.py PROGRAM [--under WORDS] [--only WORD] [--workers N] [--seconds 60]

PROGRAM is crates/trinorun/out/trinorun, or what docs/native.py makes. With --under the program is started by these words, as
  python3 docs/worked.py PROGRAM --under 'valgrind -q --leak-check=full --error-exitcode=99'
  python3 docs/worked.py PROGRAM --under 'valgrind -q --tool=helgrind --error-exitcode=99'
and what they print beside the program's own line is told. --only runs the plans whose name has the word. --workers runs all
of them on so many workers. The exit status is 1 where one is answered otherwise, or where something is printed beside.

The other scripts of this folder take their plans from here."""
import argparse
import json
import os
import shlex
import subprocess
import sys
import tempfile


class Work:
    """A plan over tables, the words of its command line and what it answers.

    `texts` are the results that are allowed, each a header and its records; where `ordered` is false, the records may come
    in any order. `line` is what is told on standard error, without the program's name, and `counts` the lines of dynamic filters."""

    def __init__(self, name, plan, tables, words="", texts=(), status=0, line="", ordered=False, counts=""):
        self.name, self.tables, self.texts = name, tables, [it.encode() for it in texts]
        self.plan = plan if isinstance(plan, bytes) else json.dumps(plan, ensure_ascii=False).encode()
        self.words, self.status, self.ordered = words.split(), status, ordered
        self.line = f"trinorun: {line}\n".encode() if line else counts.encode()

    def write(self):
        """Writes the plan and the tables into the current folder."""
        for name, bytes in (("p", self.plan), *((it, text.encode()) for it, text in self.tables.items())):
            with open(name, "wb") as file:
                file.write(bytes)

    def command(self, program):
        return [program, "--plan", "p", *self.words, *(f"{it}={it}" for it in self.tables)]

    def is_result(self, out):
        """Whether these bytes are an allowed result, or a beginning of one: (is it whole, is it a beginning)."""
        whole = [fits(out, text, self.ordered) for text in self.texts] or [(out == b"", out == b"")]
        return any(it[0] for it in whole), any(it[1] for it in whole)

    def is_answer(self, status, out, err):
        return status == self.status and self.is_result(out)[0] and err == self.line


def fits(out, text, ordered):
    """Whether the bytes are this text, and whether they are a beginning of it, its records in this order or in any."""
    if ordered:
        return out == text, text.startswith(out)
    header, records = text.split(b"\n")[0] + b"\n", text.split(b"\n")[1:-1]
    if not out.startswith(header):
        return False, header.startswith(out)
    *lines, last = out[len(header):].split(b"\n")
    for line in lines:
        if line not in records:
            return False, False
        records.remove(line)
    return not last and not records, any(it.startswith(last) for it in [*records, b""])


def column(name, type):
    return {"name": name, "type": type}


def table(name, **columns):
    return {"name": name, "columns": [column(it, type) for it, type in columns.items()]}


def scan(id, table):
    return {"id": id, "op": "scan", "table": table["name"], "columns": [it["name"] for it in table["columns"]]}


def lit(text, type="bigint"):
    return {"lit": text, "type": type}


def call(name, *args):
    return {"call": name, "args": list(args)}


def key(column, order="ASC"):
    return {"column": column, "order": order}


def single(tables, output, root):
    """The plan of one fragment."""
    return several(tables, output, {"id": 0, "placement": "SINGLE", "root": root})


def several(tables, output, *fragments):
    return {"version": 1, "output": output, "tables": tables, "fragments": list(fragments)}


A = table("t", a="bigint")
AC = table("t", a="bigint", c="varchar")
B = table("t", b="bigint")
D = table("t", d="decimal(2,1)")
WIDE = table("t", e="decimal(38,0)")
GV = table("t", g="varchar", v="bigint")
L, R = table("l", k="bigint", x="varchar"), table("r", k="bigint", y="varchar")
U, W = table("u", k="bigint"), table("w", k="bigint")
ITEMS = table("items", day="date", flag="varchar", qty="bigint", price="decimal(12,2)", disc="decimal(4,2)")
ITEM_ROWS = ("day,flag,qty,price,disc\n1998-09-01,A,10,100.00,0.10\n1998-09-02,A,5,50.50,0.00\n1998-09-03,A,1,1.00,0.00\n"
             "1998-01-01,N,2,20.00,0.05\n")
BACKSLASHES = "a,c\n1,\n2,\\\\N\n3,\\\\\\N\n"
TIES = "a,c\n2,y\n1,x\n2,z\n"
GROUP_ROWS = "g,v\n\\N,1\nx,2\n\\N,3\nx,\\N\n"
LEFT_ROWS, RIGHT_ROWS = "k,x\n1,a\n1,b\n\\N,c\n2,d\n", "k,y\n1,p\n1,q\n\\N,r\n3,s\n"
INNER = "a,b,c,d\n1,a,1,p\n1,a,1,q\n1,b,1,p\n1,b,1,q\n"
NO_ZERO, ABOVE_ONE = call("<>", {"col": 0}, lit("0")), call(">", call("/", lit("10"), {"col": 0}), lit("1"))


def remote(id, fragment):
    return {"id": id, "op": "remote", "fragment": fragment}


def filtered(predicate, input, id=1):
    return {"id": id, "op": "filter", "predicate": predicate, "input": input}


def projected(columns, input, id=1):
    return {"id": id, "op": "project", "columns": columns, "input": input}


def sorted_by(keys, input):
    return {"id": 1, "op": "sort", "keys": keys, "input": input}


def first(op, input, **keys):
    return {"id": 1, "op": op, "step": "SINGLE", **keys, "input": input}


def joined(kind, left, right, **more):
    return {"id": 1, "op": "join", "kind": kind, "on": [[0, 0]], "left": left, "right": right, **more}


def grouped(step, keys, input, id=1, calls=None):
    calls = calls or [{"name": "count_all"}, {"name": "sum", "column": len(keys)}]
    return {"id": id, "op": "aggregate", "step": step, "keys": keys, "calls": calls, "input": input}


def final(input, id):
    return {"id": id, "op": "aggregate", "step": "FINAL", "input": input}


def values(id, rows):
    return {"id": id, "op": "values", "types": ["varchar", "date"], "rows": rows}


def scanned_by_halves(table, output, calls):
    """A global aggregate in two halves over a scan."""
    return several([table], output, {"id": 0, "placement": "SINGLE", "root": final(remote(2, 1), 1)},
                   {"id": 1, "placement": "SOURCE", "output": {"kind": "SINGLE"},
                    "root": grouped("PARTIAL", [], scan(4, table), 3, calls)})


def groups_over_hash(input):
    """Groups of the first column, with their number and the sum of the second one, over a hash exchange."""
    return several([GV], ["g", "n", "s"], {"id": 0, "placement": "SINGLE", "root": remote(1, 1)},
                   {"id": 1, "placement": "HASH", "output": {"kind": "SINGLE"}, "root": final(remote(3, 2), 2)},
                   {"id": 2, "placement": "SOURCE", "output": {"kind": "HASH", "columns": [0]},
                    "root": grouped("PARTIAL", [0], input, 4)})


def pricing():
    revenue = call("*", {"col": 3}, call("-", lit("1", "decimal(1,0)"), {"col": 4}))
    early = filtered(call("<=", {"col": 0}, lit("1998-09-02", "date")), scan(7, ITEMS), 6)
    calls = [{"name": "sum", "column": 1}, {"name": "sum", "column": 2}, {"name": "avg", "column": 3}]
    rows = projected([{"col": 1}, {"col": 2}, revenue, {"col": 3}], early, 5)
    return several([ITEMS], ["flag", "qty", "revenue", "avg_price"],
                   {"id": 0, "placement": "SINGLE", "root": sorted_by([key(0)], final(remote(3, 1), 2))},
                   {"id": 1, "placement": "SOURCE", "output": {"kind": "SINGLE"},
                    "root": grouped("PARTIAL", [0], rows, 4, calls)})


SCANNED = Work("scan", single([AC], ["a", "c"], scan(9, AC)), {"t": "a,c\n1,x\n2,\n\\N,\\N\n"},
               texts=["a,c\n1,x\n2,\n\\N,\\N\n"])
SUM = scanned_by_halves(A, ["s"], [{"name": "sum", "column": 0}])
SUMMED = Work("sum", SUM, {"t": "a\n9223372036854775807\n1\n-5\n"}, "--tasks 2 --split 1 --page 1",
              ["s\n9223372036854775803\n"])
JOINED = Work("join", single([L, R], ["a", "b", "c", "d"], joined("INNER", scan(2, L), scan(3, R))),
              {"l": LEFT_ROWS, "r": RIGHT_ROWS}, texts=[INNER])
GROUPED = Work("groups", groups_over_hash(scan(5, GV)), {"t": GROUP_ROWS}, "--tasks 4", ["g,n,s\n\\N,2,4\nx,2,2\n"])
TOP = Work("top n", single([AC], ["a", "c"], first("topn", scan(9, AC), count=2, keys=[key(0)])), {"t": TIES},
           texts=["a,c\n1,x\n2,y\n", "a,c\n1,x\n2,z\n"], ordered=True)
FILTERS = [{"id": 1, "key": 0, "scan": 2, "column": 0, "wait": True}]
FILTERED = Work("join with a dynamic filter",
                single([U, W], ["c0", "c1"], joined("INNER", scan(2, U), scan(3, W), filters=FILTERS)),
                {"u": "k\n" + "".join(f"{n}\n" for n in range(10)), "w": "k\n3\n7\n3\n"}, "--counts yes",
                ["c0,c1\n3,3\n3,3\n7,7\n"], counts="filter 1 passed 2\n")
PRICED = Work("pricing", pricing(), {"items": ITEM_ROWS},
              texts=["flag,qty,revenue,avg_price\nA,15,140.5000,75.25\nN,2,19.0000,20.00\n"], ordered=True)

# Those over which memory, reads and writes are refused one by one.
SEVEN = [SCANNED, SUMMED, JOINED, GROUPED, TOP, FILTERED, PRICED]

PLUS_ONE = single([A], ["a"], projected([call("+", {"col": 0}, lit("1"))], scan(9, A)))
V, NULLS = values(2, [["é", "2024-02-29"]]), values(3, [[None, None]])

OTHERS = [
    Work("no row", single([A], ["a"], scan(9, A)), {"t": "a\n"}, texts=["a\n"]),
    Work("aggregate of no row", single([A], ["n", "s"], grouped("SINGLE", [], scan(9, A))), {"t": "a\n"},
         texts=["n,s\n0,\\N\n"]),
    Work("groups of no row", single([A], ["a", "n", "s"], grouped("SINGLE", [0], scan(9, A), 1,
         [{"name": "count_all"}, {"name": "sum", "column": 0}])), {"t": "a\n"}, texts=["a,n,s\n"]),
    Work("filter", single([A], ["a"], filtered(call(">", {"col": 0}, lit("1")), scan(9, A))), {"t": "a\n1\n\\N\n2\n"},
         texts=["a\n2\n"]),
    Work("and that stops", single([B], ["b"], filtered(call("and", NO_ZERO, ABOVE_ONE), scan(9, B))), {"t": "b\n0\n"},
         texts=["b\n"]),
    Work("and that divides first", single([B], ["b"], filtered(call("and", ABOVE_ONE, NO_ZERO), scan(9, B))), {"t": "b\n0\n"},
         status=6, line="expression failed 2 at node 1"),
    Work("plus past the range", PLUS_ONE, {"t": "a\n9223372036854775807\n"}, status=6, line="expression failed 1 at node 1"),
    Work("sum past the range", SUM, {"t": "a\n9223372036854775807\n1\n"}, "--tasks 2 --split 1 --page 1", status=6,
         line="expression failed 1 at node 1"),
    Work("cast that rounds", single([D], ["d"], projected([{"cast": {"col": 0}, "type": "decimal(1,0)"}], scan(9, D))),
         {"t": "d\n0.5\n-0.5\n"}, texts=["d\n1\n-1\n"]),
    Work("product past the range",
         single([WIDE], ["e"], projected([call("*", {"col": 0}, lit("10", "decimal(2,0)"))], scan(9, WIDE))), {"t": "e\n" + "9" * 38 + "\n"}, status=6, line="expression failed 1 at node 1"),
    Work("left join", single([L, R], ["a", "b", "c", "d"], joined("LEFT", scan(2, L), scan(3, R))),
         {"l": LEFT_ROWS, "r": RIGHT_ROWS}, texts=[INNER + "\\N,c,\\N,\\N\n2,d,\\N,\\N\n"]),
    Work("limit of none", single([AC], ["a", "c"], first("limit", scan(9, AC), count=0)), {"t": TIES}, texts=["a,c\n"]),
    Work("limit of more than all", single([AC], ["a", "c"], first("limit", scan(9, AC), count=10)), {"t": TIES}, texts=[TIES]),
    Work("sort", single([A], ["a"], sorted_by([key(0, "DESC")], scan(9, A))), {"t": "a\n1\n\\N\n3\n"}, texts=["a\n3\n1\n\\N\n"],
         ordered=True),
    Work("groups with replies again", groups_over_hash(scan(5, GV)), {"t": GROUP_ROWS}, "--tasks 4 --replay 7",
         ["g,n,s\n\\N,2,4\nx,2,2\n"]),
    Work("groups on two workers", groups_over_hash(scan(5, GV)), {"t": GROUP_ROWS}, "--workers 2 --tasks 3 --drivers 4",
         ["g,n,s\n\\N,2,4\nx,2,2\n"]),
    Work("dynamic filter of no value",
         single([U, W], ["c0", "c1"], joined("INNER", scan(2, U), scan(3, W), filters=FILTERS)), {"u": "k\n1\n2\n", "w": "k\n"}, "--counts yes", ["c0,c1\n"],
         counts="filter 1 passed 0\n"),
    Work("backslashes", single([AC], ["a", "c"], scan(9, AC)), {"t": BACKSLASHES}, texts=[BACKSLASHES]),
    Work("union of values", single([], ["c0", "c1"], {"id": 1, "op": "union", "left": V, "right": NULLS}), {},
         texts=["c0,c1\né,2024-02-29\n\\N,\\N\n"]),
    Work("like", single([], ["c0", "c1"], filtered(call("like", {"col": 0}, lit("_", "varchar")), V, 4)), {},
         texts=["c0,c1\né,2024-02-29\n"]),
    Work("cut table", single([AC], ["a", "c"], scan(9, AC)), {"t": "a,c\n1,x\n2"}, status=5, line="table t refused 2 at row 2 column 1"),
    Work("no plan", b'{"version":1', {}, status=4, line="plan refused 1 at "),
    Work("empty plan", b"{}", {}, status=4, line="plan refused 2 at "),
    Work("predicate that is none", single([A], ["a"], filtered({"col": 0}, scan(9, A))), {"t": "a\n"}, status=4,
         line="plan refused 5 at /fragments/0/root/predicate"),
    Work("two plans", b"{}", {}, "--plan q", status=2, line="bad command line"),
    Work("build side that fails", single([L, R], ["a", "b", "c", "d"], joined("INNER", scan(2, L),
         projected([call("/", lit("6"), {"col": 0}), {"col": 1}], scan(3, R), 4))), {"l": "k,x\n3,a\n", "r": "k,y\n2,p\n0,q\n3,r\n"},
         "--workers 8 --drivers 16 --split 1 --page 1", status=6, line="expression failed 2 at node 4"),
]


def printed_beside(err, line):
    """What stands in the errors beside the program's own line."""
    return err.replace(line, b"", 1) if line else err


def main():
    options = argparse.ArgumentParser(usage=__doc__)
    options.add_argument("program")
    options.add_argument("--under", default="")
    options.add_argument("--only", default="")
    options.add_argument("--workers", default="")
    options.add_argument("--seconds", type=int, default=60)
    given = options.parse_args()
    under, program, bad, ran = shlex.split(given.under), os.path.abspath(given.program), 0, 0
    with tempfile.TemporaryDirectory() as folder:
        os.chdir(folder)
        for work in SEVEN + OTHERS:
            if given.only not in work.name or given.workers and "--workers" in work.words:
                continue
            work.write()
            words = ["--workers", given.workers] if given.workers else []
            ran += 1
            try:
                done = subprocess.run([*under, *work.command(program), *words], capture_output=True, timeout=given.seconds)
            except subprocess.TimeoutExpired:
                bad += 1
                print(f"{work.name}: no answer in {given.seconds} s")
                continue
            beside = printed_beside(done.stderr, work.line)
            if not work.is_answer(done.returncode, done.stdout, work.line) or work.line not in done.stderr or beside:
                bad += 1
                print(f"{work.name}: status {done.returncode}, {done.stdout[:200]!r}, told {done.stderr[:200]!r}")
                print(beside.decode(errors="replace"), end="")
    print(f"{ran} plans, {bad} answered otherwise than they should, or with something beside")
    return 1 if bad else 0


if __name__ == "__main__":
    sys.exit(main())
