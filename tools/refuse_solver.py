#!/usr/bin/env python3.11
"""Refuses each allocation of a run of `solve_systems` in turn, one number a run.

The program demands each variable of a system, and once more where memory ran out. Each run must end with 70 and print
nothing (memory ran out elsewhere: in making the system or in merging), or print the sets of the run with ample memory:
then the solver went on after the refusal. Prints how many numbers were tried, how many went on after a refused demand,
how many ended with 70, and each run that does neither.

usage: tools/refuse_solver.py [SHAPE SIZE]     (a ring of 20 variables and 40 in layers, where none is given)
It is skipped with status 0 where the program or a C compiler is missing.
"""
import os
import subprocess
import sys
import tempfile

from refuse_allocations import ROOT, compiled_shim, compiler_for

PROGRAM = os.path.join(ROOT, "crates/solve_systems/out/solve_systems")


def run(words, shim, at, made):
    env = dict(os.environ, LD_PRELOAD=shim, REFUSE_AT=str(at), MADE_FILE=made)
    done = subprocess.run([PROGRAM, *words], env=env, capture_output=True, check=False)
    return done.returncode, done.stdout.split(b"\n"), done.stderr


def try_shape(words, folder, shim):
    """Tries every number on one system; returns how many were tried, went on, gave 70, and what differs."""
    made = os.path.join(folder, "made")
    ample = run(words, shim, -1, made)
    with open(made, encoding="ascii") as file:
        count = int(file.read())
    went_on, out_of_memory, differs = 0, 0, []
    for at in range(1, count + 1):
        status, lines, errors = run(words, shim, at, made)
        if (status, lines, errors) == (70, [b""], b""):
            out_of_memory += 1
        elif status != 0 or lines[0] != ample[1][0] or errors:
            differs.append((words, at, status, lines, errors))
        elif lines[1] == b"refused 1":
            went_on += 1
    return count, went_on, out_of_memory, differs


def main():
    compiler = compiler_for(PROGRAM)
    if compiler is None:
        return 0
    failed = False
    with tempfile.TemporaryDirectory() as folder:
        shim = compiled_shim(compiler, folder)
        for words in [sys.argv[1:3]] if len(sys.argv) > 2 else [["ring", "20"], ["layers", "40"]]:
            count, went_on, out_of_memory, differs = try_shape(words, folder, shim)
            print(f"{' '.join(words)}: {count} allocations refused in turn, {went_on} went on after a refused demand, "
                  f"{out_of_memory} ended with 70 and nothing printed, {count - went_on - out_of_memory - len(differs)} as "
                  f"with ample memory, {len(differs)} differ")
            for row in differs:
                print("   ", row)
                failed = True
    return 1 if failed else 0


if __name__ == "__main__":
    sys.exit(main())
