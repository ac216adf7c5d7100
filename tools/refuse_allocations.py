#!/usr/bin/env python3.11
"""Refuses each allocation of a run of the program in turn, one number a run.

Each run must end with 70 and print nothing, or end as the run with ample memory does. A shim over malloc, which is
compiled here and loaded before the C library, refuses the allocation with the given number. Prints how many numbers
were tried, how many ended with 70, and each run that does neither.

usage: tools/refuse_allocations.py [FILE ..]     (three small sources of its own where none is given)
It is skipped with status 0 where the program or a C compiler is missing.
"""
import os
import shutil
import subprocess
import sys
import tempfile

ROOT = os.path.dirname(os.path.dirname(os.path.realpath(__file__)))
PROGRAM = os.path.join(ROOT, "crates/pylint/out/pylint")
SOURCES = {
    "c.py": b'"""Doc."""\nX = 1  ',
    "n.py": "\u210c = 1  # \u00e9\nif X:\n    Y = (1,\n  2)\n".encode() + b"#" * 120 + b"\n",
    "t.py": b"if X:\n        A = 1\n\tB = 2\n",
}
SHIM = r"""
#define _GNU_SOURCE
#include <dlfcn.h>
#include <stdlib.h>
#include <string.h>
#include <unistd.h>
#include <fcntl.h>
#include <errno.h>
static long made, at = -2;
static int refused(void) {
    if (at == -2) { const char *n = getenv("REFUSE_AT"); at = n ? atol(n) : -1; }
    return ++made == at;
}
__attribute__((destructor)) static void tell(void) {
    const char *path = getenv("MADE_FILE");
    if (!path) return;
    int f = open(path, O_WRONLY | O_CREAT | O_TRUNC, 0600);
    char text[24]; int i = 23; text[i] = 0;
    long n = made; do { text[--i] = '0' + n % 10; n /= 10; } while (n);
    if (f >= 0) { if (write(f, text + i, 23 - i) < 0) {} close(f); }
}
extern void *__libc_malloc(size_t), *__libc_calloc(size_t, size_t), *__libc_realloc(void *, size_t), *__libc_memalign(size_t, size_t);
void *malloc(size_t n) { if (refused()) { errno = ENOMEM; return 0; } return __libc_malloc(n); }
void *calloc(size_t a, size_t b) { if (refused()) { errno = ENOMEM; return 0; } return __libc_calloc(a, b); }
void *realloc(void *p, size_t n) { if (refused()) { errno = ENOMEM; return 0; } return __libc_realloc(p, n); }
void *aligned_alloc(size_t a, size_t n) { if (refused()) { errno = ENOMEM; return 0; } return __libc_memalign(a, n); }
int posix_memalign(void **p, size_t a, size_t n) { if (refused()) return ENOMEM; *p = __libc_memalign(a, n); return *p ? 0 : ENOMEM; }
"""


def compiler_for(program):
    """The C compiler, or nothing, which is told, where it or the program is missing."""
    compiler = shutil.which("cc") or shutil.which("gcc")
    if os.path.exists(program) and compiler is not None:
        return compiler
    print("skipped: the program or a C compiler is missing")
    return None


def compiled_shim(compiler, folder):
    """The path of the shim, compiled in a folder."""
    source, shim = os.path.join(folder, "shim.c"), os.path.join(folder, "shim.so")
    with open(source, "w", encoding="ascii") as file:
        file.write(SHIM)
    subprocess.run([compiler, "-shared", "-fPIC", "-O1", "-o", shim, source], check=True)
    return shim


def run(folder, name, shim, at, made):
    env = dict(os.environ, LD_PRELOAD=shim, REFUSE_AT=str(at), MADE_FILE=made)
    done = subprocess.run([PROGRAM, name], cwd=folder, env=env, capture_output=True, check=False)
    return done.returncode, done.stdout, done.stderr


def try_source(folder, name, shim):
    """Tries every number on one file; returns how many were tried, how many gave 70, and what differs."""
    made = os.path.join(folder, "made")
    ample = run(folder, name, shim, -1, made)
    with open(made, encoding="ascii") as file:
        count = int(file.read())
    out_of_memory, differs = 0, []
    for at in range(1, count + 1):
        seen = run(folder, name, shim, at, made)
        if seen == (70, b"", b""):
            out_of_memory += 1
        elif seen != ample:
            differs.append((name, at, seen))
    return count, out_of_memory, differs


def main():
    compiler = compiler_for(PROGRAM)
    if compiler is None:
        return 0
    with tempfile.TemporaryDirectory() as folder:
        shim = compiled_shim(compiler, folder)
        names = []
        for path in sys.argv[1:]:
            names.append(os.path.basename(path))
            shutil.copy(path, os.path.join(folder, names[-1]))
        for name, text in {} if names else SOURCES.items():
            names.append(name)
            with open(os.path.join(folder, name), "wb") as file:
                file.write(text)
        failed = False
        for name in names + ["none.py"]:
            count, out_of_memory, differs = try_source(folder, name, shim)
            print(f"{name}: {count} allocations refused in turn, {out_of_memory} ended with 70 and nothing printed, "
                  f"{count - out_of_memory - len(differs)} as with ample memory, {len(differs)} differ")
            for row in differs:
                print("   ", row)
                failed = True
        return 1 if failed else 0


if __name__ == "__main__":
    sys.exit(main())
