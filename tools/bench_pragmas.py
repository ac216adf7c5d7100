#!/usr/bin/env python3
"""Times the program over made files with many pragmas, beside files of as many comments that are none.

usage: tools/bench_pragmas.py PYLINT    (the built program, as crates/pylint/out/pylint)
"""
import os
import resource
import subprocess
import sys
import tempfile

FORMS = {
    "no pragma": lambda i: f"X{i} = 1   # nothing of the kind stands here, in a comment so long \n",
    "behind code": lambda i: f"X{i} = 1   # pylint: disable=trailing-whitespace, line-too-long \n",
    "alone on a line": lambda i: f"# pylint: {'disable' if i % 2 else 'enable'}=trailing-whitespace \nX{i} = 1 \n",
    "in headers and blocks": lambda i: (
        f"def f{i}():  # pylint: disable=missing-function-docstring \n    # pylint: disable=trailing-whitespace\n    return 1 \n"
        if i % 2
        else ""
    ),
}


def seconds(program, path):
    """The least of three times of the processor."""
    times = []
    for _ in range(3):
        before = resource.getrusage(resource.RUSAGE_CHILDREN)
        subprocess.run([program, "--score=no", path], stdout=subprocess.DEVNULL, check=False)
        after = resource.getrusage(resource.RUSAGE_CHILDREN)
        times.append(after.ru_utime + after.ru_stime - before.ru_utime - before.ru_stime)
    return min(times)


def main():
    program = os.path.abspath(sys.argv[1])
    with tempfile.TemporaryDirectory() as folder:
        for form, text in FORMS.items():
            row = []
            for count in (2_500, 5_000, 10_000, 20_000):
                path = os.path.join(folder, "made.py")
                with open(path, "w", encoding="utf-8") as file:
                    file.write('"""Doc."""\n' + "".join(text(i) for i in range(count)))
                row.append(f"{seconds(program, path):.3f}")
            print(f"| {form} | " + " | ".join(row) + " |")


main()
