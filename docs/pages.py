#!/usr/bin/env python3
"""Holds the pages against the tree, and says what does not fit.

usage: python3 docs/pages.py [PROGRAM]

At the top of the repository. It looks whether each link of a page leads somewhere, whether a merge left its marks, and
whether ARCHITECTURE has each crate of crates.txt once, on its floor, in order. With PROGRAM, which is crates/trinorun/out/trinorun, it runs each
command of the README and of FORMATS that begins with that path, and looks whether what it prints is a block of the page
behind it. The exit status is 1 where something does not fit."""
import os
import re
import subprocess
import sys

BUILT = "crates/trinorun/out/trinorun"
PICTURE = "      values         expressions"


def text_of(page):
    with open(page, encoding="utf-8") as file:
        return file.read()


def pages():
    return ["README.md"] + sorted("docs/" + name for name in os.listdir("docs") if name.endswith(".md"))


def anchors(page):
    heads = re.findall(r"^#+ (.*)$", text_of(page), re.M)
    return {re.sub(r"[^\w\- ]", "", head.lower()).replace(" ", "-") for head in heads}


def broken_links(page):
    for link in re.findall(r"\]\(([^)]+)\)", text_of(page)):
        file, _, anchor = link.partition("#")
        target = os.path.normpath(os.path.join(os.path.dirname(page), file)) if file else page
        if not os.path.exists(target) or anchor and anchor not in anchors(target):
            yield f"{page}: the link {link} leads nowhere"


def merge_marks(page):
    for mark in re.findall(r"^(?:<<<<<<<|=======|>>>>>>>).*$", text_of(page), re.M):
        yield f"{page}: a merge left {mark}"


def crates():
    lines = [line.split(":") for line in text_of("crates.txt").splitlines() if line.strip()]
    return {name.split()[0]: uses.split() for name, uses in lines}


def floor_of(name, uses):
    return max((1 + floor_of(used, uses) for used in uses[name] if used in uses), default=0)


def listed_crates(text):
    """The crates of the tables of groups: group, floor and name."""
    group = ""
    for line in text.splitlines():
        group = (re.findall(r"^\*\*(.*?)\*\*", line) or [group])[0]
        for floor, name in re.findall(r"^\| (\d+) \| `(\w+)` \|", line):
            yield group, int(floor), name


def drawn_crates(text):
    """The crates of the picture of the floors: name and floor."""
    floor = 0
    for line in text[text.index(PICTURE):].split("```")[0].splitlines()[1:]:
        floor = int((re.findall(r"^ {1,2}(\d+) ", line) or [floor])[0])
        for name in re.findall(r"[a-z]\w+", line):
            yield name, floor


def wrong_crates():
    page, uses = "docs/ARCHITECTURE.md", crates()
    listed, drawn = list(listed_crates(text_of(page))), dict(drawn_crates(text_of(page)))
    for group in {group for group, _, _ in listed}:
        rows = [row[1:] for row in listed if row[0] == group]
        if rows != sorted(rows):
            yield f"{page}: {group} is not sorted"
    for name in uses:
        if name.endswith("_tests"):
            continue
        floor = floor_of(name, uses)
        if [row[1] for row in listed if row[2] == name] != [floor]:
            yield f"{page}: {name} is not listed once on floor {floor}"
        if drawn.get(name) != floor and name not in ("operator_examples", "test_fixtures"):
            yield f"{page}: {name} is not drawn on floor {floor}"


def wrong_commands(page, program):
    blocks = [block for _, block in re.findall(r"^```(\w*)\n(.*?)^```", text_of(page), re.M | re.S)]
    for at, block in enumerate(blocks):
        if not block.startswith(BUILT):
            continue
        done = subprocess.run([program] + block.split()[1:], capture_output=True, text=True, timeout=60)
        if done.returncode != 0 or done.stdout not in blocks[at + 1:]:
            yield f"{page}: {block.strip()} ended with {done.returncode} and printed\n{done.stdout}{done.stderr}"


def main():
    wrong = [told for page in pages() for look in (broken_links, merge_marks) for told in look(page)]
    wrong += list(wrong_crates())
    for program in sys.argv[1:]:
        wrong += [told for page in ("README.md", "docs/FORMATS.md") for told in wrong_commands(page, program)]
    print("\n".join(wrong + [f"{len(wrong)} things do not fit"]))
    return 1 if wrong else 0


if __name__ == "__main__":
    sys.exit(main())
