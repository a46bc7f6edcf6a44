#!/usr/bin/env python3
"""Proves the libraries side by side as `rt ci` does, over what an earlier run of this made, and says what each function took.

usage: python3 docs/prove_libraries.py OUT LANES [CRATE..]

OUT is a folder outside of the repository. OUT/X/X.rlib is made of the crate X, with its statements alone, as the crates above it
read them; OUT/X/key is a sum of its files and of those below it, so that a crate of which nothing changed is passed over;
OUT/X/times has a line for each function, in processor seconds. LANES checks run at a time. With CRATEs only these and
those below them are proved. It is no gate: it tries no edit, proves no test and links no program. `docs/try_edits.py` and
a check of one crate read OUT. A crate that fails stops none but those above it; its log is OUT/X/log.
"""

import functools
import hashlib
import os
import shutil
import subprocess
import sys
import threading
import time

KIT = os.path.dirname(os.path.dirname(os.path.realpath(shutil.which("rt"))))


def uses_of(root):
    """What each crate's line names."""
    lines = [line.split("#")[0].partition(":") for line in open(f"{root}/crates.txt") if ":" in line.split("#")[0]]
    return {name.split()[0]: words.split() for name, _, words in lines}


def below(uses, crate):
    found, left = [], [crate]
    while left:
        for name in uses[left.pop()]:
            if name in uses and name not in found:
                found.append(name)
                left.append(name)
    return found


def words(root, out, uses, crate, verb):
    """The command of `rt ci` for the crate, over the libraries in `out`."""
    top = "src/lib.rt" if os.path.exists(f"{root}/crates/{crate}/src/lib.rt") else "src/main.rt"
    made = [f"{KIT}/bin/rattle", verb, "--crate-name", crate, top, "--extern", f"std={KIT}/rlibs/std.rlib", "-L", f"dependency={KIT}/rlibs"]
    for name in uses[crate]:
        made += ["--extern", f"{name}={out}/{name}/{name}.rlib" if name in uses else f"{name}={KIT}/rlibs/{name}.rlib"]
    for name in below(uses, crate):
        made += ["-L", f"dependency={out}/{name}"]
    made += ["--antt-project", f"{KIT}/rattle/logic/antt-project.json", "--links", f"{crate}="]
    return made


def files_of(folder):
    for part in ("src", "specs", "proofs"):
        for at, folders, names in os.walk(f"{folder}/{part}"):
            folders.sort()
            yield from (f"{at}/{name}" for name in sorted(names))


class Libraries:
    def __init__(self, root, out, only):
        self.root, self.out, self.uses = root, out, uses_of(root)
        tests = {line.split()[0] for line in open(f"{root}/crates.txt") if " staticlib:" in line}
        wanted = set(only) | {name for it in only for name in below(self.uses, it)} if only else set(self.uses)
        self.all = [it for it in self.uses if it in wanted - tests and os.path.exists(f"{root}/crates/{it}/src/lib.rt")]
        self.key = functools.lru_cache(None)(self.key)
        self.weight = functools.lru_cache(None)(self.weight)

    def key(self, crate):
        sum = hashlib.sha256(repr(self.uses[crate]).encode())
        for file in files_of(f"{self.root}/crates/{crate}"):
            sum.update(repr((file[len(self.root) :], open(file, "rb").read())).encode())
        sum.update("".join(self.key(it) for it in self.uses[crate] if it in self.uses).encode())
        return sum.hexdigest()

    def weight(self, crate):
        """Its lines and those of the longest chain of crates above it."""
        own = sum(open(file, "rb").read().count(b"\n") for file in files_of(f"{self.root}/crates/{crate}"))
        return own + max((self.weight(it) for it in self.all if crate in self.uses[it]), default=0)

    def is_done(self, crate):
        file = f"{self.out}/{crate}/key"
        return os.path.exists(file) and open(file).read() == self.key(crate)

    def run(self, crate, command, log, times=None):
        """Runs a command in the crate's folder, with the processor seconds at each line `checked`."""
        how = {"cwd": f"{self.root}/crates/{crate}", "stdin": subprocess.DEVNULL, "stdout": subprocess.PIPE, "stderr": subprocess.STDOUT}
        ran, last = subprocess.Popen(command, text=True, errors="replace", **how), 0.0
        for line in ran.stdout:
            log.write(line)
            if times and line.startswith("checked "):
                fields = open(f"/proc/{ran.pid}/stat").read().rsplit(")", 1)[1].split()
                now = (int(fields[11]) + int(fields[12])) / os.sysconf("SC_CLK_TCK")
                times.write(f"{now - last:.2f} {now:.1f} {line}")
                last = now
        return ran.wait()

    def prove(self, crate):
        folder, key = f"{self.out}/{crate}", self.key(crate)
        shutil.rmtree(folder, ignore_errors=True)
        os.makedirs(folder)
        room = f"{folder}/checked"
        check = words(self.root, self.out, self.uses, crate, "check")
        check += ["--logic-built", f"{KIT}/logic_built", "--jobs", "1", "--statements", "--empty-contracts", "--progress", "-o", room]
        build = words(self.root, self.out, self.uses, crate, "build") + ["--statements", "--crate-checked", room, "-o", f"{folder}/{crate}.rlib"]
        with open(f"{folder}/log", "w") as log, open(f"{folder}/times", "w") as times:
            status = self.run(crate, check, log, times) or self.run(crate, build, log)
        shutil.rmtree(room, ignore_errors=True)
        if not status:
            open(f"{folder}/key", "w").write(key)
        return not status


def main(out, lanes, *only):
    libraries = Libraries(os.getcwd(), os.path.abspath(out), only)
    done, failed, running = {it for it in libraries.all if libraries.is_done(it)}, set(), set()
    changed = threading.Condition()

    def lane(crate):
        began = time.time()
        is_proved = libraries.prove(crate)
        with changed:
            running.remove(crate)
            (done if is_proved else failed).add(crate)
            print(time.strftime("%H:%M:%S"), crate, "proved" if is_proved else "FAILED", f"{time.time() - began:.0f} s", f"{len(done)} of {len(libraries.all)}", flush=True)
            changed.notify()

    with changed:
        while True:
            left = [it for it in libraries.all if it not in done | failed | running]
            ready = [it for it in left if all(name in done for name in libraries.uses[it] if name in libraries.uses)]
            for crate in sorted(ready, key=libraries.weight, reverse=True)[: int(lanes) - len(running)]:
                running.add(crate)
                threading.Thread(target=lane, args=(crate,)).start()
            if not running:
                return 1 if failed or left else 0
            changed.wait()


if __name__ == "__main__":
    if len(sys.argv) < 3:
        sys.exit(__doc__)
    sys.exit(main(*sys.argv[1:]))
