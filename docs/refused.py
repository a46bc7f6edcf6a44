#!/usr/bin/env python3
"""Runs seven plans with each growth of memory, each read, write, open and start of a thread refused once, and tells what came.

usage: python3 docs/refused.py PROGRAM [--kinds grow,read,..] [--workers 1,2] [--seconds 60]

PROGRAM is crates/trinorun/out/trinorun, or what docs/native.py makes, linked with the shared C library. A shim that `cc` compiles
is loaded before it (LD_PRELOAD). It counts the program's own calls of one kind and refuses the Nth, N from 1 until a run makes
fewer than N:
  grow         malloc or realloc gives nothing            read, write   an error (EIO); `write` is to standard output
  tell         a write to standard error is an error      open          a file that can't be opened
  thread       pthread_create starts none                 short_read, short_write   one byte is moved
Each run has to end in time, with the plan's own answer, or so that it tells of the refusal: status 1 for memory and threads,
3 for reads and opens, 7 for writes, with its line; the output then holds nothing, or for status 7 a beginning of a result
that the plan allows. A run whose errors fail keeps its status, and what is told is a beginning of its line. At the end of
each run the program holds no more blocks of memory than at the end of one in which nothing was refused. What breaks this is
told, and the exit status is then 1."""
import argparse
import collections
import os
import subprocess
import sys
import tempfile
import time

sys.dont_write_bytecode = True
import worked

SHIM = r"""
#define _GNU_SOURCE
#include <dlfcn.h>
#include <errno.h>
#include <fcntl.h>
#include <link.h>
#include <pthread.h>
#include <stdarg.h>
#include <stdatomic.h>
#include <stdio.h>
#include <stdlib.h>
#include <string.h>
#include <sys/resource.h>
#include <unistd.h>

static const char *const KINDS[] = {"grow", "read", "write", "tell", "open", "thread", "short_read", "short_write"};
enum { GROW, READ, WRITE, TELL, OPEN, THREAD, SHORT_READ, SHORT_WRITE, COUNT };
static atomic_long calls[COUNT], live;
static long nth[COUNT], is_known, told;
static uintptr_t from, to;

static int find(struct dl_phdr_info *it, size_t size, void *unused) {
    for (int n = 0; n < it->dlpi_phnum; n++)
        if (it->dlpi_phdr[n].p_type == PT_LOAD) {
            uintptr_t at = it->dlpi_addr + it->dlpi_phdr[n].p_vaddr;
            if (!from || at < from) from = at;
            if (at + it->dlpi_phdr[n].p_memsz > to) to = at + it->dlpi_phdr[n].p_memsz;
        }
    return 1; /* the first is the program itself */
}

__attribute__((constructor)) static void begin(void) {
    const char *what = getenv("REFUSE");
    dl_iterate_phdr(find, 0);
    for (int kind = 0; what && kind < COUNT; kind++) {
        size_t length = strlen(KINDS[kind]);
        if (!strncmp(what, KINDS[kind], length) && what[length] == ':') nth[kind] = atol(what + length + 1);
    }
    is_known = 1;
}

static void tell_counts(void) {
    const char *path = getenv("REFUSE_TO");
    if (!path || told++) return;
    char text[400];
    struct rusage used;
    getrusage(RUSAGE_SELF, &used);
    int at = snprintf(text, sizeof text, "live %ld\nmost %ld\n", atomic_load(&live), used.ru_maxrss);
    for (int kind = 0; kind < COUNT; kind++)
        at += snprintf(text + at, sizeof text - at, "%s %ld\n", KINDS[kind], atomic_load(&calls[kind]));
    int file = syscall(2 /* open */, path, O_WRONLY | O_CREAT | O_TRUNC, 0644);
    if (file >= 0) { syscall(1 /* write */, file, text, at); syscall(3 /* close */, file); }
}

__attribute__((destructor)) static void end(void) { tell_counts(); }

static int is_own(void *caller) { return is_known && (uintptr_t)caller >= from && (uintptr_t)caller < to; }
static int is_refused(int kind) { return atomic_fetch_add(&calls[kind], 1) + 1 == nth[kind]; }
#define OWN is_own(__builtin_return_address(0))

extern void *__libc_malloc(size_t), *__libc_realloc(void *, size_t);
extern void __libc_free(void *);

void *malloc(size_t size) {
    if (!OWN) return __libc_malloc(size);
    if (is_refused(GROW)) { errno = ENOMEM; return 0; }
    atomic_fetch_add(&live, 1);
    return __libc_malloc(size);
}
void *realloc(void *block, size_t size) {
    if (!OWN) return __libc_realloc(block, size);
    if (is_refused(GROW)) { errno = ENOMEM; return 0; }
    if (!block) atomic_fetch_add(&live, 1);
    return __libc_realloc(block, size);
}
void free(void *block) {
    if (block && OWN) atomic_fetch_add(&live, -1);
    __libc_free(block);
}
ssize_t read(int file, void *to_here, size_t size) {
    static ssize_t (*real)(int, void *, size_t);
    if (!real) real = dlsym(RTLD_NEXT, "read");
    if (file < 3 || !OWN) return real(file, to_here, size);
    if (is_refused(READ)) { errno = EIO; return -1; }
    return real(file, to_here, size > 1 && is_refused(SHORT_READ) ? 1 : size);
}
ssize_t write(int file, const void *bytes, size_t size) {
    static ssize_t (*real)(int, const void *, size_t);
    if (!real) real = dlsym(RTLD_NEXT, "write");
    if (!OWN) return real(file, bytes, size);
    if (is_refused(file == 2 ? TELL : WRITE)) { errno = EIO; return -1; }
    return real(file, bytes, size > 1 && is_refused(SHORT_WRITE) ? 1 : size);
}
int open(const char *path, int how, ...) {
    static int (*real)(const char *, int, ...);
    va_list rest;
    va_start(rest, how);
    mode_t mode = va_arg(rest, mode_t);
    va_end(rest);
    if (!real) real = dlsym(RTLD_NEXT, "open");
    if (OWN && is_refused(OPEN)) { errno = EACCES; return -1; }
    return real(path, how, mode);
}
int pthread_create(pthread_t *thread, const pthread_attr_t *how, void *(*work)(void *), void *with) {
    static int (*real)(pthread_t *, const pthread_attr_t *, void *(*)(void *), void *);
    if (!real) real = dlsym(RTLD_NEXT, "pthread_create");
    if (OWN && is_refused(THREAD)) return EAGAIN;
    return real(thread, how, work, with);
}
void _exit(int status) {
    tell_counts();
    for (;;) syscall(231 /* exit_group */, status);
}
"""

KINDS = ["grow", "read", "write", "tell", "open", "thread", "short_read", "short_write"]
# Those in which a run tells of what was refused, and how.
TOLD = {"grow": (1, b"out of memory"), "thread": (1, b"out of memory"), "read": (3, b"cannot read "), "open": (3, b"cannot read "),
        "write": (7, b"cannot write")}
# Plans with another status than 0 are there for the writes to the errors.
FAILING = [it for it in worked.OTHERS if it.status]


class Shim:
    """Starts a program with the Nth call of a kind refused."""

    def __init__(self, folder):
        self.file, self.counts = f"{folder}/shim.so", f"{folder}/counts"
        with open(f"{folder}/shim.c", "w") as file:
            file.write(SHIM)
        subprocess.run(["cc", "-O1", "-w", "-shared", "-fPIC", "-o", self.file, f"{folder}/shim.c", "-ldl"], check=True)

    def run(self, words, kind, number, seconds):
        """The status, the output, the errors, and the counts: of calls, of blocks held at the end, and of the most kB that it took."""
        if os.path.exists(self.counts):
            os.remove(self.counts)
        how = {**os.environ, "LD_PRELOAD": self.file, "REFUSE": f"{kind}:{number}", "REFUSE_TO": self.counts}
        done = subprocess.run(words, capture_output=True, timeout=seconds, env=how)
        if not os.path.exists(self.counts):
            sys.exit(f"the shim was not loaded, or the program was killed: status {done.returncode}, {done.stderr[-200:]!r}")
        with open(self.counts) as file:
            counts = {name: int(count) for name, count in (line.split() for line in file)}
        return done.returncode, done.stdout, done.stderr, counts


def is_told(work, kind, status, out, err):
    """Whether a run in which one call of this kind was refused ended as it may."""
    if kind == "tell":
        return status == work.status and work.is_result(out)[0] and work.line.startswith(err)
    if work.is_answer(status, out, err):
        return True
    if kind not in TOLD:
        return False
    wanted, line = TOLD[kind]
    is_written = work.is_result(out)[1] if wanted == 7 else not out
    return status == wanted and is_written and err.startswith(b"trinorun: " + line) and err.count(b"\n") == 1


def sweep(shim, program, work, kind, workers, seconds, came):
    """Refuses each call of a kind once, and gives how many runs there were and what broke."""
    words, broken = [*work.command(program), *(["--workers", workers] if "--workers" not in work.words else [])], []
    least = shim.run(words, kind, 0, seconds)[3]["live"]
    number = 0
    while True:
        number += 1
        try:
            status, out, err, counts = shim.run(words, kind, number, seconds)
        except subprocess.TimeoutExpired:
            broken.append(f"{work.name}, {kind} {number}, {workers} workers: no answer in {seconds} s")
            came["no answer"] += 1
            continue
        came[status] += 1
        if not is_told(work, kind, status, out, err) or counts["live"] > least:
            broken.append(f"{work.name}, {kind} {number}, {workers} workers: status {status}, {out[:100]!r}, told {err[:100]!r}, "
                          f"{counts['live']} blocks held, and {least} where nothing is refused")
        if counts[kind] < number:
            return number, broken


def main():
    options = argparse.ArgumentParser(usage=__doc__)
    options.add_argument("program")
    options.add_argument("--kinds", default=",".join(KINDS))
    options.add_argument("--workers", default="1,2")
    options.add_argument("--seconds", type=int, default=60)
    given = options.parse_args()
    program, bad = os.path.abspath(given.program), 0
    with tempfile.TemporaryDirectory() as folder:
        os.chdir(folder)
        shim = Shim(folder)
        for kind in given.kinds.split(","):
            for workers in given.workers.split(","):
                began, runs, came = time.monotonic(), 0, collections.Counter()
                for work in worked.SEVEN + (FAILING if kind == "tell" else []):
                    work.write()
                    more, broken = sweep(shim, program, work, kind, workers, given.seconds, came)
                    runs, bad = runs + more, bad + len(broken)
                    print("\n".join(broken), end="\n" * bool(broken), flush=True)
                counts = ", ".join(f"{came[it]} with {it}" for it in sorted(came, key=str))
                print(f"{kind}, {workers} workers: {runs} runs in {time.monotonic() - began:.0f} s, by status {counts}", flush=True)
    print(f"{bad} runs ended otherwise than they may")
    return 1 if bad else 0


if __name__ == "__main__":
    sys.exit(main())
