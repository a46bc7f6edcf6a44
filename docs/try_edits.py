#!/usr/bin/env python3
"""Tries must-fail edits over libraries that `docs/prove_libraries.py` made, and says what each refusal took.

usage: python3 docs/try_edits.py OUT CRATE[:EDIT,..].. [-- FLAG..]

Before the edits of a crate it is proved as it is, into a folder of this run, as `rt ci` does with the first of them; so the seconds
of each edit after it are its own. With `-- --only FUNCTION` nothing else is proved. An edit that is proved is NOT REFUSED.
"""

import importlib.machinery
import os
import re
import resource
import shutil
import subprocess
import sys
import tempfile

sys.dont_write_bytecode = True
sys.path.insert(0, os.path.dirname(os.path.realpath(__file__)))
from prove_libraries import KIT, uses_of, words

RT = importlib.machinery.SourceFileLoader("rt", f"{KIT}/bin/rt").load_module()


def checked(out, crate, texts, kept, flags):
    """Checks a copy of the crate with these texts: its status, what it said, and its processor seconds."""
    root = os.getcwd()
    with tempfile.TemporaryDirectory() as room:
        for part in ("src", "specs", "proofs"):
            if os.path.isdir(f"crates/{crate}/{part}"):
                shutil.copytree(f"crates/{crate}/{part}", f"{room}/{part}")
        for path, text in texts.items():
            open(f"{room}/{path}", "w").write(text)
        command = words(root, out, uses_of(root), crate, "check")
        command += ["--logic-built", f"{KIT}/logic_built", "--jobs", "1", "--incremental", kept, *flags]
        before = resource.getrusage(resource.RUSAGE_CHILDREN)
        ran = subprocess.run(command, cwd=room, stdin=subprocess.DEVNULL, stdout=subprocess.PIPE, stderr=subprocess.STDOUT, text=True, errors="replace")
        after = resource.getrusage(resource.RUSAGE_CHILDREN)
    return ran.returncode, ran.stdout, after.ru_utime + after.ru_stime - before.ru_utime - before.ru_stime


def try_edits(out, crate, names, flags):
    folder, wrong = f"crates/{crate}", 0
    names = names or sorted(it[: -len(".edit")] for it in os.listdir(f"{folder}/must-fail") if it.endswith(".edit"))
    with tempfile.TemporaryDirectory() as kept:
        for name in ["", *names]:
            texts, why = RT.read_edit(f"{folder}/must-fail/{name}.edit", folder) if name else ({}, None)
            status, said, seconds = (0, why, 0) if why else checked(out, crate, texts, kept, flags)
            told = [it for it in said.split("\n") if re.match(r"(note: )?\S+:\d+:\d+:", it)]
            is_well = not why and status == (1 if name else 0)
            wrong += not is_well
            answer = ("refused" if name else "proved") if is_well else ("NOT REFUSED" if name and not status else "WRONG")
            print(f"{crate} {name or 'as it is'}: {answer}, {seconds:.1f} s {(why or (told or [''])[0])[:160]}", flush=True)
    return wrong


def main(out, *given):
    at = given.index("--") if "--" in given else len(given)
    wrong = 0
    for it in given[:at]:
        crate, _, names = it.partition(":")
        wrong += try_edits(os.path.abspath(out), crate, names.split(",") if names else [], given[at + 1 :])
    return 1 if wrong else 0


if __name__ == "__main__":
    if len(sys.argv) < 3:
        sys.exit(__doc__)
    sys.exit(main(*sys.argv[1:]))
