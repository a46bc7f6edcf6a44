#!/usr/bin/env python3
"""Puts random bytes into good plans and good tables, cuts some from them and turns some, and says what came.

usage: python3 docs/damage.py PROGRAM [--runs 10000] [--seed 1] [--seconds 1.0] [--keep FOLDER]

PROGRAM is crates/trinorun/out/trinorun, or what docs/native.py makes. Each run damages either the plan or one table, at one to
three places. It has to answer in time, with status 0, 4 or 5:
  4   code 1 exactly where Python's json reads no document, within what docs/FORMATS.md says of one, and then at the empty
      path; any other code at a place that the damaged document has
  5   at a row and a column that the damaged table has, by a reader of its own. Reason 1 is at the header, 2 at the number of
      fields of a record that has another one than there are columns, 3 at a field that is no UTF-8
  0   where each record has as many fields as there are columns, and all of them are UTF-8; then the lines of `--counts` stand
      on standard error where the run asks for them, and nothing else
What breaks this is told, with --keep its files are kept, and the exit status is then 1. The same seed damages the same."""
import argparse
import collections
import json
import os
import random
import re
import shutil
import subprocess
import sys
import tempfile
import time

sys.dont_write_bytecode = True
import worked

# In a plan or table these go further than any byte does.
OFTEN = b'{}[]",:\\0123456789-+.eEnulltrfa~/ \n\r\xc3\xa9\x00'
WORD = re.compile(rb'"[^"]*"|-?[0-9]+|true|false|null')
MORE_ROWS = "g,v\n" + "".join(f"g{n % 7},{n}\n" for n in range(40)) + '"a ""b"",c",\\N\n'
SMALL_SUM = worked.Work("small sum", worked.SUM, {"t": "a\n7\n-5\n\\N\n12\n"}, "--tasks 2 --split 1 --page 1")
MANY_GROUPS = worked.Work("many groups", worked.GROUPED.plan, {"t": MORE_ROWS}, "--tasks 3")
# Those in which nothing can fail, as they stand.
CALM = [it for it in worked.SEVEN + worked.OTHERS
        if it.status == 0 and not re.search(rb'"[/%]"', it.plan) and "9223372036854775807" not in str(it.tables)]
WORKS = CALM + [SMALL_SUM, MANY_GROUPS]


def damaged(text, chance):
    """The bytes with some put in, cut out or turned at one to three places."""
    text = bytearray(text)
    for _ in range(chance.randint(1, 3)):
        at, way = chance.randint(0, len(text)), chance.randrange(7)
        some = [chance.choice(OFTEN) if chance.random() < 0.7 else chance.randrange(256) for _ in range(chance.randint(1, 3))]
        if way == 0:
            text[at:at] = some
        elif way == 1:
            del text[at:at + chance.randint(1, 20)]
        elif way == 2:
            text[at:at + len(some)] = some
        elif way == 3 and at < len(text):
            text[at] ^= 1 << chance.randrange(8)
        elif way == 4:
            again = chance.randint(0, len(text))
            text[at:at] = text[again:again + chance.randint(1, 12)]
        elif way > 4:
            put_word(text, chance)
    return bytes(text)


def put_word(text, chance):
    """Puts one text, number or word of JSON in the place of another, so that there is a document more often."""
    words = list(WORD.finditer(bytes(text)))
    if words:
        old, new = chance.choice(words), chance.choice(words)
        text[old.start():old.end()] = new.group()


def refuse(word):
    raise ValueError(word)


def finite(word):
    number = float(word)
    if number in (float("inf"), float("-inf")):
        raise ValueError(word)
    return number


def depth(document):
    if not isinstance(document, (dict, list)):
        return 0
    return 1 + max(map(depth, document.values() if isinstance(document, dict) else document), default=0)


def document_of(text):
    """The document, or None where the bytes are none."""
    try:
        text = text.decode()
        found = json.loads(text, parse_constant=refuse, parse_float=finite, parse_int=lambda it: finite(it) and int(it) or 0)
        json.dumps(found, ensure_ascii=False).encode()
    except (ValueError, RecursionError):
        return None
    return None if text.startswith("\ufeff") or depth(found) > 127 else [found]


def has_place(document, path):
    """Whether a document has the place of a JSON Pointer."""
    for step in path.split("/")[1:]:
        step = step.replace("~1", "/").replace("~0", "~")
        if isinstance(document, list) and step.isdigit() and int(step) < len(document):
            document = document[int(step)]
        elif isinstance(document, dict) and step in document:
            document = document[step]
        else:
            return False
    return path == "" or path.startswith("/")


def records_of(text):
    """The records of a table, each a list of fields."""
    text = text[3:] if text.startswith(b"\xef\xbb\xbf") else text
    records, fields, field, state, is_any = [], [], bytearray(), "start", False
    for byte in text:
        byte = bytes([byte])
        if state == "quoted":
            state, field = ("quote", field) if byte == b'"' else ("quoted", field + byte)
            continue
        if state == "quote" and byte == b'"':
            state, field = "quoted", field + byte
            continue
        if byte in b"\n\r":
            if is_any:
                records.append(fields + [field])
            fields, field, state, is_any = [], bytearray(), "start", False
            continue
        is_any = True
        if byte == b",":
            fields, field, state = fields + [field], bytearray(), "start"
        elif byte == b'"' and state == "start":
            state = "quoted"
        else:
            state, field = "plain", field + byte
    return records + ([fields + [field]] if is_any else [])


def is_text(field):
    try:
        field.decode()
        return True
    except ValueError:
        return False


def columns_of(document, name):
    return next([it["name"].encode() for it in table["columns"]] for table in document["tables"] if table["name"] == name)


def is_refusal(table, columns, why, row, column):
    """Whether a table may be refused so."""
    records = records_of(table)
    if row >= max(1, len(records)):
        return False
    fields = records[row] if records else []
    if why == 1:
        return row == 0 and fields[:column] == columns[:column] and fields[column:column + 1] != columns[column:column + 1]
    if records[0] != columns or any(len(it) != len(columns) for it in records[:row]):
        return False
    if why == 2:
        return column == len(fields) != len(columns)
    is_field = len(fields) == len(columns) and column < len(fields) and all(map(is_text, fields[:column]))
    return is_field and row > 0 and is_text(fields[column]) == (why == 4) and why in (3, 4)


def is_good(table, columns):
    """Whether a table has the form of one with these columns."""
    records = records_of(table)
    return records[:1] == [columns] and all(len(it) == len(columns) and all(map(is_text, it)) for it in records)


def is_right(plan, tables, words, status, out, err):
    """Whether a run with these options over this plan and these tables may end so."""
    found = document_of(plan)
    refused = re.fullmatch(rb"trinorun: plan refused (\d) at (.*)\n", err, re.S)
    if status == 4 and refused and not out:
        code, path = int(refused[1]), refused[2].decode()
        return code == 1 and found is None and path == "" or code != 1 and found is not None and has_place(found[0], path)
    if found is None:
        return False
    names = [it["name"] for it in found[0]["tables"]]
    refused = re.fullmatch(rb"trinorun: table (.*) refused (\d) at row (\d+) column (\d+)\n", err, re.S)
    if status == 5 and refused and not out:
        name = refused[1].decode()
        return name in names and is_refusal(tables[name], columns_of(found[0], name), *map(int, refused.groups()[1:]))
    lines = rb"(filter \d+ passed \d+\n)*" if "--counts" in words else b""
    return status == 0 and re.fullmatch(lines, err) and all(is_good(tables[name], columns_of(found[0], name)) for name in names)


def main():
    options = argparse.ArgumentParser(usage=__doc__)
    options.add_argument("program")
    options.add_argument("--runs", type=int, default=10000)
    options.add_argument("--seed", type=int, default=1)
    options.add_argument("--seconds", type=float, default=1.0)
    options.add_argument("--keep")
    given = options.parse_args()
    program, keep = os.path.abspath(given.program), given.keep and os.path.abspath(given.keep)
    came, bad, slowest, began, chance = collections.Counter(), 0, 0.0, time.monotonic(), random.Random(given.seed)
    with tempfile.TemporaryDirectory() as folder:
        os.chdir(folder)
        for run in range(given.runs):
            work = WORKS[run % len(WORKS)]
            plan, tables = work.plan, {it: text.encode() for it, text in work.tables.items()}
            hit = chance.choice(["p", "p", *tables]) if tables else "p"
            if hit == "p":
                plan = damaged(plan, chance)
            else:
                tables[hit] = damaged(tables[hit], chance)
            for name, text in (("p", plan), *tables.items()):
                with open(name, "wb") as file:
                    file.write(text)
            start = time.monotonic()
            try:
                done = subprocess.run(work.command(program), capture_output=True, timeout=60)
                status, out, err = done.returncode, done.stdout, done.stderr
            except subprocess.TimeoutExpired:
                status, out, err = "no answer", b"", b""
            took = time.monotonic() - start
            slowest = max(slowest, took)
            code = err.split(b" refused ")[1][:1].decode() if status in (4, 5) and b" refused " in err else ""
            came[f"{status} {code}".strip()] += 1
            try:
                is_bad = took > given.seconds or not is_right(plan, tables, work.words, status, out, err)
            except (KeyError, TypeError, StopIteration, IndexError) as error:
                is_bad, err = True, err + repr(error).encode()
            if is_bad:
                bad += 1
                print(f"run {run}, {work.name}, {hit} damaged: {status} in {took:.2f} s, {out[:80]!r}, told {err[:200]!r}",
                      flush=True)
                if keep:
                    shutil.copytree(folder, f"{keep}/{run}", dirs_exist_ok=True)
    counts = ", ".join(f"{came[it]} with {it}" for it in sorted(came))
    print(f"{given.runs} runs of seed {given.seed} in {time.monotonic() - began:.0f} s, the slowest in {slowest:.2f} s, by status "
          f"and code or reason: {counts}; {bad} ended otherwise than they may")
    return 1 if bad else 0


if __name__ == "__main__":
    sys.exit(main())
