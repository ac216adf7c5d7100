#!/usr/bin/env python3.11
"""Holds the scopes that the program `list_scopes` gives against Python's `symtable`, over every .py file of a library.

Each name of each scope is local, global or free by the program, and by `symtable`. A difference that a stated rule
explains is counted under that rule; each other one is printed. Files are read where they lie.

usage: tools/compare_scopes.py [FOLDER ..]     (the library of the running Python where none is given)
It is skipped with status 0 where the program or the folder is missing.
"""
import ast
import collections
import concurrent.futures
import os
import subprocess
import symtable
import sys
import warnings

import scope_trees
from library_files import files_below, given_folders

ROOT = os.path.dirname(os.path.dirname(os.path.realpath(__file__)))
PROGRAM = os.path.join(ROOT, "crates/list_scopes/out/list_scopes")
WORDS = {
    ast.Module: "module", ast.FunctionDef: "def", ast.AsyncFunctionDef: "async", ast.Lambda: "lambda", ast.ClassDef: "class",
    ast.ListComp: "listcomp", ast.SetComp: "setcomp", ast.DictComp: "dictcomp", ast.GeneratorExp: "genexp",
}
# what the symbol table says of a name itself, in the C sources' words: global, local, parameter, nonlocal, used,
# imported, annotated
SAID = 1 | 2 | 4 | 8 | 16 | 128 | 256

PASSED_ON = "a name that is free there for the functions inside alone has no node there"
ONLY_DECLARED = "a name that is declared, and neither read nor bound there"
OF_CLASS = "`__class__` in a method is a cell of the class"
ANNOTATED = "annotations are no code under `from __future__ import annotations`"
BRACKETED = "`(x): int` makes the name local"
WALRUS = "a name that is bound there by a walrus in a comprehension alone has no node there"
COMPREHENSIONS = (ast.ListComp, ast.SetComp, ast.DictComp, ast.GeneratorExp)


class Scope:
    """A scope as the program lists it."""

    def __init__(self, number, line, column, word, name):
        self.number, self.place, self.word, self.name = number, (line, column, number), word, name
        self.inner, self.classes = [], {}

    def say(self, name, found):
        """Local counts before what binders and reads say."""
        if self.classes.get(name) != "local":
            self.classes[name] = found


def listed(lines):
    """The scopes of one file, by their numbers; nothing where the file was refused."""
    if lines == ["refused"]:
        return None
    scopes, later = {}, []
    for line in lines:
        words = line.split(" ")
        if words[0] == "scope":
            number, around, row, column = map(int, words[1:5])
            scopes[number] = Scope(number, row, column, words[5], words[6])
            if number:
                scopes[around].inner.append(scopes[number])
        elif words[0] == "local":
            scopes[int(words[1])].say(words[2], "local")
        else:
            later.append(words)
    for words in later:
        scope = scopes[int(words[1])]
        if words[0] == "bound":
            scope.say(words[3], "global" if words[2] == "0" else "free")
        elif words[2] == "local":
            scope.say(words[4], "local" if words[3] == words[1] else "free")
        elif words[2] == "free":
            scope.say(words[4], "free")
        elif words[1] != "0" or words[2] != "global":
            scope.say(words[4], "global")
    return scopes


class FutureTables(scope_trees.Tables):
    """The same without annotations, which are no code."""

    def outside(self, args, table, private):
        self.visit_all(args.defaults + args.kw_defaults, table, private)

    def visit(self, n, table, private):
        if isinstance(n, (ast.FunctionDef, ast.AsyncFunctionDef)):
            n.returns = None
        if isinstance(n, ast.AnnAssign):
            self.visit_all([n.target, n.value], table, private)
        else:
            super().visit(n, table, private)


def has_future(tree):
    return any(
        isinstance(n, ast.ImportFrom) and n.module == "__future__" and any(a.name == "annotations" for a in n.names)
        for n in tree.body
    )


def bracketed_names(tree):
    """The names that an annotation makes local although they stand in brackets."""
    return {n.target.id for n in ast.walk(tree) if isinstance(n, ast.AnnAssign) and not n.simple and isinstance(n.target, ast.Name)}


def walrus_names(tree):
    """The names that walruses in comprehensions bind."""
    found = set()
    for outer in ast.walk(tree):
        if isinstance(outer, COMPREHENSIONS):
            found |= {n.target.id for n in ast.walk(outer) if isinstance(n, ast.NamedExpr)}
    return found


def expected(top, table):
    """What `symtable` says of each name of a table, with whether it says so of the name itself."""
    found = {}
    for symbol in table.get_symbols():
        if symbol.get_name() == ".0":
            continue
        said = "local" if symbol.is_local() else "free" if symbol.is_free() else "global"
        found[symbol.get_name()] = (said, symbol._Symbol__flags)
    if table.get_type() == "module":
        # the module has what functions bind there by `global`, too
        for inner in scope_trees.every_table(top):
            for symbol in inner.get_symbols():
                if symbol.is_declared_global() and (symbol.is_assigned() or symbol.is_imported() or symbol.is_namespace()):
                    found[symbol.get_name()] = ("local", 2)
    return found


class Comparison:
    """One file's scopes beside its symbol tables."""

    def __init__(self, path, scopes):
        self.path, self.scopes = path, scopes
        self.counts = collections.Counter()
        self.differences = []

    def run(self):
        with open(self.path, "rb") as file:
            source = file.read()
        try:
            with warnings.catch_warnings():
                warnings.simplefilter("ignore")
                tree = ast.parse(source)
                self.future = has_future(tree)
                tables = (FutureTables if self.future else scope_trees.Tables)(source)
        except (SyntaxError, ValueError, RecursionError, MemoryError) as error:
            self.counts["files that Python's compiler refuses"] += 1
            if self.scopes is None or not isinstance(error, SyntaxError):
                return self
            self.counts["of those with scopes here"] += 1
            return self
        if self.scopes is None:
            self.counts["files that the program refuses"] += 1
            return self
        self.counts["files compared"] += 1
        self.tables, self.top = tables, tables.top
        self.bracketed, self.walruses = bracketed_names(tree), walrus_names(tree)
        self.compare(self.scopes[0], tables.top)
        return self

    def differ(self, scope, what):
        self.counts["differences"] += 1
        self.differences.append(f"{self.path}:{scope.place[0]}: {scope.word} {scope.name}: {what}")

    def compare(self, scope, table):
        self.counts["scopes"] += 1
        theirs = expected(self.top, table)
        for name in sorted(set(theirs) | set(scope.classes)):
            self.compare_name(scope, name, scope.classes.get(name), *theirs.get(name, (None, 0)))
        self.compare_inner(scope, table)

    def compare_name(self, scope, name, ours, said, flags):
        self.counts["names"] += 1
        if ours == said:
            self.counts[said] += 1
        elif name == "__class__":
            self.counts["rule: " + OF_CLASS] += 1
        elif ours is None and not flags & SAID:
            self.counts["rule: " + PASSED_ON] += 1
        elif ours is None and flags & SAID in (1, 8):
            self.counts["rule: " + ONLY_DECLARED] += 1
        elif said is None and self.future:
            self.counts["rule: " + ANNOTATED] += 1
        elif ours == "local" and name in self.bracketed:
            self.counts["rule: " + BRACKETED] += 1
        elif ours is None and flags & 9 and name in self.walruses:
            self.counts["rule: " + WALRUS] += 1
        else:
            self.differ(scope, f"{name}: {ours} here, {said} by symtable (flags {flags})")

    def compare_inner(self, scope, table):
        ours, theirs = collections.defaultdict(list), collections.defaultdict(list)
        for inner in scope.inner:
            ours[inner.word, inner.name].append(inner)
        for inner in table.get_children():
            node = self.tables.opener[inner.get_id()]
            theirs[WORDS[type(node)], getattr(node, "name", "-")].append((node.lineno, node.col_offset, inner.get_id(), inner))
        for key in sorted(set(ours) | set(theirs)):
            here, there = sorted(ours[key], key=lambda s: s.place), sorted(theirs[key])
            if len(here) != len(there) and not self.future:
                self.differ(scope, f"{len(here)} scopes {key} here, {len(there)} by symtable")
            elif len(here) != len(there):
                self.counts["rule: " + ANNOTATED] += 1
            else:
                for inner, (_, _, _, found) in zip(here, there):
                    self.compare(inner, found)


def listings(paths):
    """What the program lists of some files."""
    done = subprocess.run([PROGRAM, "list", *paths], capture_output=True, check=False)
    if done.returncode:
        raise SystemExit(f"status {done.returncode} on {paths}")
    parts = done.stdout.decode().split("\n")
    heads = [i for i, line in enumerate(parts) if line.startswith("file ")] + [len(parts) - 1]
    return [parts[a + 1 : b] for a, b in zip(heads, heads[1:])]


def compare_files(paths):
    """The comparisons of some files."""
    sys.setrecursionlimit(20000)
    counts, differences = collections.Counter(), []
    for path, lines in zip(paths, listings(paths)):
        done = Comparison(path, listed(lines)).run()
        counts += done.counts
        differences += done.differences
    return counts, differences


def main():
    paths = list(files_below(given_folders(PROGRAM, sys.argv[1:])))
    if not paths:
        return 0
    parts = [paths[i : i + 40] for i in range(0, len(paths), 40)]
    counts, shown = collections.Counter(), 0
    with concurrent.futures.ProcessPoolExecutor(2) as workers:
        for found, differences in workers.map(compare_files, parts):
            counts += found
            for line in differences:
                print(line)
    print(f"{len(paths)} files")
    for name, count in sorted(counts.items()):
        print(f"{count} {name}")
    return 1 if counts["differences"] else 0


if __name__ == "__main__":
    sys.exit(main())
