#!/usr/bin/env python3.11
"""Holds the program's syntax errors against Python's own parser over every .py file of Python's library.

For each file the program's E0001 is compared with what ast.parse() says of it. A file is accepted by both, refused by
both, in another encoding, or a difference. A difference that a stated rule explains is counted under that rule; each
other one is printed. Files are read where they lie.

usage: tools/compare_syntax.py [FOLDER ..]     (the library of the running Python where none is given)
It is skipped with status 0 where the program or the folder is missing.
"""
import ast
import collections
import concurrent.futures
import os
import re
import subprocess
import sys
import tokenize
import warnings

from library_files import files_below, given_folders

ROOT = os.path.dirname(os.path.dirname(os.path.realpath(__file__)))
PROGRAM = os.path.join(ROOT, "crates/pylint/out/pylint")

# what Python refuses and the program accepts, by Python's words, with the rule that says so
ACCEPTED_HERE = [
    (re.compile(r"\(unicode error\)|\(value error\)"), "escapes of a string are not decoded"),
    (re.compile(r"can't use starred expression here|cannot use starred expression here"), "a star alone in a field is a form"),
    (re.compile(r"expression nested too deeply|too many statically nested blocks"), "no limit of this kind"),
    (re.compile(r"default 'except:' must be last"), "the place of a bare except is not asked"),
]

# what the program refuses and Python accepts, by the program's words, with the rule that says so
REFUSED_HERE = [
    (re.compile(r"too many levels"), "levels of indentation and brackets are limited"),
    (re.compile(r"another encoding is named"), "other encodings"),
]


def told(path):
    """The program's E0001 on a file, or nothing; "?" with what it printed where it ended in another way."""
    folder, name = os.path.split(path)
    done = subprocess.run([PROGRAM, name], cwd=folder, capture_output=True, check=False)
    for line in done.stdout.decode("utf-8", "replace").splitlines():
        if ": E0001: " in line:
            return line[len(name) + 1 :]
    if done.returncode & ~31 or b": F00" in done.stdout:
        return f"? status {done.returncode}: {done.stdout[-200:]!r} {done.stderr[-200:]!r}"
    return None


def refused(path):
    """What ast.parse() says against a file, or nothing."""
    with open(path, "rb") as file:
        source = file.read()
    try:
        with warnings.catch_warnings():
            warnings.simplefilter("ignore")
            ast.parse(source, path)
    except (SyntaxError, ValueError) as error:
        line = getattr(error, "lineno", None)
        return f"line {line}: {error.args[0] if error.args else error}"
    except (RecursionError, MemoryError) as error:
        return f"line None: {error!r}"
    return None


def other_encoding(path):
    """Whether a file names another encoding than UTF-8 and is not pure ASCII."""
    with open(path, "rb") as file:
        try:
            name = tokenize.detect_encoding(file.readline)[0]
        except SyntaxError:
            return True
        file.seek(0)
        return name not in ("utf-8", "utf-8-sig") and not file.read().isascii()


def verdict(path):
    """How the program and Python agree on a file."""
    ours, theirs = told(path), refused(path)
    if ours and ours.startswith("?"):
        return "difference", ours, theirs
    if bool(ours) == bool(theirs):
        return ("both refuse" if ours else "both accept"), ours, theirs
    if other_encoding(path):
        return "other encoding", ours, theirs
    rules = ACCEPTED_HERE if theirs else REFUSED_HERE
    for words, rule in rules:
        if words.search(theirs or ours):
            return "rule: " + rule, ours, theirs
    return "difference", ours, theirs


def main():
    paths = list(files_below(given_folders(PROGRAM, sys.argv[1:])))
    if not paths:
        return 0
    counts = collections.Counter()
    with concurrent.futures.ThreadPoolExecutor(os.cpu_count()) as workers:
        for path, (name, ours, theirs) in zip(paths, workers.map(verdict, paths)):
            counts[name] += 1
            if name == "difference":
                print(f"{path}\n    program: {ours}\n    Python:  {theirs}")
    print(f"{len(paths)} files: " + ", ".join(f"{count} {name}" for name, count in sorted(counts.items())))
    return 1 if counts["difference"] else 0


if __name__ == "__main__":
    sys.exit(main())
