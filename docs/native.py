#!/usr/bin/env python3
"""Makes the program that `rt try` compiles, without its checks, or with ThreadSanitizer in their place.

usage: python3 docs/native.py OUT [--crate NAME] [--races]

Run at the top of the repository. OUT is the program, which no one has proved: docs/worked.py, docs/refused.py,
docs/long_runs.py, docs/damage.py and docs/stress.py take it. `rt try` is started in crates/trinorun and ended again once it
has handed its LLVM module to the kit's clang; that compiles the module again, and `cc` links it with the kit's C parts. With
--crate it is the program of another crate.

With --races each function of the module is marked for ThreadSanitizer (a mark that a compiler's front end sets; without it
only atomic operations are looked at), and `cc` links its runtime. A race is then told on standard error of a run, which
docs/worked.py and docs/stress.py take for an answer that should not be."""
import argparse
import glob
import os
import shutil
import subprocess
import sys
import tempfile
import time

KIT = os.path.dirname(os.path.dirname(os.path.realpath(shutil.which("rt") or sys.exit("rt is not on the path"))))
CLANG = [f"{KIT}/toolchain/bin/clang", "--target=x86_64-unknown-linux-gnu", "-march=x86-64", "--no-default-config",
         "-mllvm", "-no-trap-after-noreturn", "-mllvm", "-trap-unreachable", "-x", "ir"]
# What gcc's runtime of ThreadSanitizer has under other names.
STUBS = """#include <string.h>
void *__tsan_memcpy(void *to, const void *from, size_t n) { return memcpy(to, from, n); }
void *__tsan_memmove(void *to, const void *from, size_t n) { return memmove(to, from, n); }
void *__tsan_memset(void *to, int byte, size_t n) { return memset(to, byte, n); }
"""


def module_in(folder):
    """The module that clang compiles by now, if any: the largest, beside which its object file begins to stand."""
    found = [it for it in glob.glob(f"{folder}/**/module.bc", recursive=True) if glob.glob(f"{os.path.dirname(it)}/module*.o*")]
    found = [it for it in found if os.path.getsize(it) > 100_000]
    return max(found, key=os.path.getsize, default=None)


def take_module(folder, crate):
    """Copies the module of the crate's program into a folder."""
    tried = subprocess.Popen(["rt", "try", "--", "--demo", "0"], cwd=f"crates/{crate}", env={**os.environ, "TMPDIR": folder},
                             stdout=subprocess.DEVNULL, stderr=subprocess.DEVNULL)
    try:
        while tried.poll() is None:
            found = module_in(folder)
            if found:
                return shutil.copy(found, f"{folder}/program.bc")
            time.sleep(0.05)
    finally:
        tried.terminate()
        tried.wait()
    sys.exit("rt try ended before it compiled anything")


def marked(module):
    """The same module with each function marked for ThreadSanitizer."""
    text = module[:-3] + ".ll"
    subprocess.run([*CLANG, "-O0", "-S", "-emit-llvm", "-o", text, module], check=True)
    with open(text) as old, open(text + ".ll", "w") as new:
        for line in old:
            new.write(line.replace("sanitize_address", "sanitize_thread") if line.startswith("attributes #") else line)
    return text + ".ll"


def main():
    options = argparse.ArgumentParser(usage=__doc__)
    options.add_argument("out")
    options.add_argument("--crate", default="trinorun")
    options.add_argument("--races", action="store_true")
    given = options.parse_args()
    with tempfile.TemporaryDirectory() as folder:
        module, races = take_module(folder, given.crate), ["-fsanitize=thread"] if given.races else []
        if given.races:
            module = marked(module)
        subprocess.run([*CLANG, "-O1", "-fPIE", *races, "-c", "-o", f"{folder}/program.o", module], check=True)
        parts = [f"{folder}/program.o"]
        if given.races:
            with open(f"{folder}/stubs.c", "w") as file:
                file.write(STUBS)
            subprocess.run(["cc", "-O1", "-fno-builtin", "-c", "-o", f"{folder}/stubs.o", f"{folder}/stubs.c"], check=True)
            parts.append(f"{folder}/stubs.o")
        parts += [f"{KIT}/c/libos_c.a", f"{KIT}/c/liblibc_c.a"]
        subprocess.run(["cc", "-pie", *races, "-o", given.out, *parts, "-lpthread", "-ldl", "-lm"], check=True)


if __name__ == "__main__":
    sys.exit(main())
