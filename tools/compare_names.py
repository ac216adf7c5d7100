#!/usr/bin/env python3.11
"""Holds undefined-variable, unused-import and unused-variable of this program against pyflakes and pylint, over a library.

A place is a file, a message, a name and a line; where both tools report a name of a file on different lines, these are one.
Each place that one tool alone reports is counted under its cause, and printed where it has none. Files are read where they
lie.

usage: tools/compare_names.py [--list] [FOLDER ..]     (the library of the running Python, without its tests, where none is given)
`--list` prints each place that one tool alone reports, with its cause. A tool that isn't installed is left out; where the
program is missing the script is skipped with status 0.
"""
import ast
import collections
import functools
import os
import re
import shutil
import subprocess
import sys

from library_files import files_below, given_folders

ROOT = os.path.dirname(os.path.dirname(os.path.realpath(__file__)))
PROGRAM = os.path.join(ROOT, "crates/pylint/out/pylint")
CODES = "E0602,W0611,W0612"
LEFT_OUT = {"test", "tests", "idle_test", "site-packages"}
Place = collections.namedtuple("Place", "path code name line")

OF_PYLINT = re.compile(r"(.+?):(\d+):\d+: (E0602|W0611|W0612): (.*) \([a-z-]+\)$")
OF_PYFLAKES = re.compile(r"(.+?):(\d+):\d+:? (.*)$")
TEXTS = (
    ("E0602", re.compile(r"undefined name '(.*)'$")),
    ("W0611", re.compile(r"'(.*)' imported but unused$")),
    ("W0612", re.compile(r"local variable '(.*)' is assigned to but never used$")),
    ("W0612", re.compile(r"local variable '(.*)' is annotated but never used$")),
)
FUNCTIONS = (ast.FunctionDef, ast.AsyncFunctionDef)
COMPREHENSIONS = (ast.ListComp, ast.SetComp, ast.DictComp, ast.GeneratorExp)


# ---- what the tools report

def imported_name(text):
    """The last part of the name that an import binds, from the text of either tool."""
    text = text.removeprefix("Unused ").removeprefix("import ")
    if " imported as " in text:
        return text.rsplit(" imported as ", 1)[1]
    whole, _, source = text.partition(" imported from ")
    return re.split(r" as |[ .]", source if " as " in source else whole)[-1]


def of_pylint(lines):
    """The places in a report of pylint's shape."""
    for line in lines:
        found = OF_PYLINT.match(line)
        if found:
            path, number, code, text = found.groups()
            name = imported_name(text) if code == "W0611" else text.split("'")[1]
            yield Place(path, code, name, int(number))


def of_pyflakes(lines):
    """The places in a report of pyflakes."""
    for line in lines:
        found = OF_PYFLAKES.match(line)
        if not found:
            continue
        path, number, text = found.groups()
        for code, form in TEXTS:
            named = form.match(text)
            if named:
                yield Place(path, code, imported_name(named[1]) if code == "W0611" else named[1], int(number))


def report(words, paths):
    """The lines that a tool prints for some files, a few hundred of them a run."""
    for i in range(0, len(paths), 200):
        done = subprocess.run([*words, *paths[i : i + 200]], capture_output=True, text=True, errors="replace", check=False)
        yield from done.stdout.split("\n")


def matched(ours, theirs):
    """How often both report a place, how often on different lines, and what either reports alone."""
    ours, theirs = collections.Counter(ours), collections.Counter(theirs)
    both = (ours & theirs).total()
    ours, theirs = ours - theirs, theirs - ours
    lines = collections.defaultdict(list)
    for place in sorted(theirs.elements()):
        lines[place[:3]].append(place)
    moved, alone = 0, []
    for place in sorted(ours.elements()):
        if lines[place[:3]]:
            lines[place[:3]].pop(0)
            moved += 1
        else:
            alone.append(place)
    return both, moved, alone, [place for left in lines.values() for place in left]


# ---- why one reports alone

class Source:
    """A file's text and tree, with what a cause asks of it."""

    def __init__(self, path):
        with open(path, "rb") as file:
            text = file.read()
        self.path, self.lines = path, text.decode(errors="replace").split("\n")
        self.nodes = list(ast.walk(ast.parse(text)))
        self.parents = {inner: node for node in self.nodes for inner in ast.iter_child_nodes(node)}

    def above(self, node):
        """The nodes around a node, the nearest first."""
        while node in self.parents:
            node = self.parents[node]
            yield node

    def some(self, kinds, holds=lambda node: True):
        return any(isinstance(node, kinds) and holds(node) for node in self.nodes)

    def binders(self, name):
        """The names, functions, classes and imports that bind a name, wherever they stand."""
        for node in self.nodes:
            if isinstance(node, ast.Name):
                bound = node.id if isinstance(node.ctx, ast.Store) else None
            elif isinstance(node, ast.alias):
                bound = node.asname or node.name.split(".")[0]
            elif isinstance(node, (*FUNCTIONS, ast.ClassDef, ast.ExceptHandler, ast.MatchAs, ast.MatchStar)):
                bound = node.name
            else:
                bound = None
            if bound == name:
                yield node

    def at(self, place):
        """The nodes that bind the name of a place on its line."""
        return [node for node in self.binders(place.name) if node.lineno == place.line]

    def alias(self, place):
        """The import of a place."""
        for node in self.nodes:
            if isinstance(node, ast.alias) and self.parents[node].lineno == place.line:
                if re.split("[.]", node.asname or node.name)[-1] == place.name:
                    return node
        return None

    def calls(self, name, node):
        return isinstance(node, ast.Call) and isinstance(node.func, ast.Name) and node.func.id == name


def is_exempt(source, place):
    return place.name == "dummy" or place.name.startswith(("_", "ignored_", "unused_"))


def is_package(source, place):
    return os.path.basename(source.path) == "__init__.py"


def is_star(source, place):
    return place.name == "*"


def is_part(source, place):
    return any(isinstance(source.parents[node], (ast.Tuple, ast.List, ast.Starred)) for node in source.at(place))


def is_loop_variable(source, place):
    return any(isinstance(source.parents[node], (ast.For, ast.AsyncFor)) for node in source.at(place))


def is_inner(source, place):
    return any(isinstance(node, (*FUNCTIONS, ast.ClassDef)) for node in source.at(place)) or any(
        isinstance(node, (*FUNCTIONS, ast.ClassDef)) and node.name == place.name and node.lineno == place.line for node in source.nodes
    )


def is_deleted(source, place):
    return source.some(ast.Name, lambda n: n.id == place.name and isinstance(n.ctx, ast.Del))


def is_in_comment(source, place):
    return any(re.search(rf"#\s*type:.*\b{re.escape(place.name)}\b", line) for line in source.lines)


def has_star(source, place):
    return source.some(ast.alias, lambda n: n.name == "*")


def is_global(source, place):
    return source.some(ast.Global, lambda n: place.name in n.names)


def is_nonlocal(source, place):
    return source.some(ast.Nonlocal, lambda n: place.name in n.names)


def calls_locals(source, place):
    inner = [f for f in source.nodes if isinstance(f, FUNCTIONS) and f.lineno <= place.line <= f.end_lineno]
    return any(source.calls("locals", node) for f in inner for node in ast.walk(f))


def is_outside(source, place):
    return not any(isinstance(f, FUNCTIONS) and f.lineno <= place.line <= f.end_lineno for f in source.nodes)


def is_elsewhere(source, place):
    alias = source.alias(place)
    return alias is not None and len(list(source.binders(alias.asname or alias.name.split(".")[0]))) > 1


def is_tried(source, place):
    alias = source.alias(place)
    return alias is not None and any(isinstance(node, ast.Try) for node in source.above(alias))


def is_of_comprehension(source, place):
    return any(isinstance(n, ast.comprehension) for node in source.binders(place.name) for n in [*source.above(node)][:3])


def is_rewritten(source, place):
    return source.path.endswith(("http/client.py", "re/__init__.py", "ssl.py"))


def is_made_up(source, place):
    return place.name not in source.lines[place.line - 1] and source.alias(place) is None


def is_dummy(source, place):
    return place.name.startswith("dummy")


def is_read(source, place):
    return source.some(ast.Name, lambda n: n.id == place.name and isinstance(n.ctx, ast.Load))


CAUSES = {
    ("pyflakes", "here", "W0611"): (
        ("is named in a `# type:` comment alone", is_in_comment),
        ("is made and deleted", is_deleted),
        ("is bound a second time", is_elsewhere),
    ),
    ("pyflakes", "here", "W0612"): (
        ("is a part of an unpacking", is_part),
        ("is the variable of a loop", is_loop_variable),
        ("is a function or class within a function", is_inner),
        ("is made and deleted", is_deleted),
        ("is bound under `nonlocal`", is_nonlocal),
    ),
    ("pyflakes", "there", "E0602"): (
        ("stands in a `# type:` comment", is_in_comment),
        ("is deleted later", is_deleted),
    ),
    ("pyflakes", "there", "W0611"): (
        ("is a wildcard import", is_star),
        ("stands in a package's own file", is_package),
        ("is exempt", is_exempt),
    ),
    ("pyflakes", "there", "W0612"): (
        ("is exempt", is_exempt),
        ("belongs to no function", is_outside),
        ("is read in the function", is_read),
    ),
    ("pylint", "here", "E0602"): (("is one that pylint adds to `http.client`, `re` and `ssl`", is_rewritten),),
    ("pylint", "here", "W0611"): (
        ("is named in a `# type:` comment alone", is_in_comment),
        ("is made and deleted", is_deleted),
        ("is imported in a `try`", is_tried),
    ),
    ("pylint", "here", "W0612"): (
        ("begins with `dummy`", is_dummy),
        ("is made and deleted", is_deleted),
        ("is bound under `nonlocal`", is_nonlocal),
        ("is the variable of a comprehension, too", is_of_comprehension),
    ),
    ("pylint", "there", "E0602"): (
        ("may come from a wildcard import", has_star),
        ("is bound under `global` alone", is_global),
    ),
    ("pylint", "there", "W0611"): (
        ("is exempt", is_exempt),
        ("stands in a text of pylint's own", is_made_up),
        ("is named by `__all__`", is_package),
    ),
    ("pylint", "there", "W0612"): (("belongs to a function that calls `locals()`", calls_locals),),
}


@functools.cache
def source_of(path):
    return Source(path) if os.path.isfile(path) else None


def cause_of(tool, side, place):
    """The first cause that holds of a place, if one does."""
    source = source_of(place.path)
    if source is None:
        return "stands in a text of pylint's own"
    for text, holds in CAUSES.get((tool, side, place.code), ()):
        if holds(source, place):
            return text
    return None


# ---- the run

def tools():
    """The other tools that are installed, how each is called and how its report is read."""
    for name, words, read in (
        ("pyflakes", ["pyflakes3"], of_pyflakes),
        ("pylint", ["pylint", "--disable=all", f"--enable={CODES}", "--score=n", "--rcfile=/dev/null"], of_pylint),
    ):
        program = shutil.which(words[0]) or shutil.which(name)
        if program:
            yield name, [program, *words[1:]], read


def compare(tool, ours, theirs, is_listing):
    both, moved, here, there = matched(ours, theirs)
    print(f"{tool}: {both} places are reported by both, {moved} on different lines, {len(here)} here alone, {len(there)} there alone")
    unexplained = 0
    for side, places in (("here", here), ("there", there)):
        counts = collections.Counter()
        for place in places:
            cause = cause_of(tool, side, place)
            counts[place.code, cause or "NO CAUSE"] += 1
            unexplained += cause is None
            if is_listing or cause is None:
                print(f"  {side} alone: {place.path}:{place.line}: {place.code} {place.name}: {cause or 'NO CAUSE'}")
        for (code, cause), count in sorted(counts.items()):
            print(f"  {count} {side} alone: {code}: the name {cause}")
    return unexplained


def main():
    is_listing = "--list" in sys.argv[1:]
    folders = given_folders(PROGRAM, [word for word in sys.argv[1:] if word != "--list"])
    if not folders:
        return 0
    paths = list(files_below(folders, LEFT_OUT))
    ours = list(of_pylint(report([PROGRAM, "--disable=all", f"--enable={CODES}", "--score=n"], paths)))
    print(f"{len(paths)} files, {len(ours)} places here")
    return 1 if sum(compare(name, ours, list(read(report(words, paths))), is_listing) for name, words, read in tools()) else 0


if __name__ == "__main__":
    sys.exit(main())
