"""Chooses small programs whose rows refuse each changed definition of scope_rules, and writes the rows.

    scope_choice.py choose [N]   over N processes: writes scope_chosen.txt, and lists the changes that no program refuses
    scope_choice.py write        the rows of crates/scope_rows, from scope_chosen.txt
    scope_choice.py list         each change with the row that refuses it, to standard output
    scope_choice.py kinds        the same for each table of kinds with each kind that it has not
"""
import ast
import json
import multiprocessing
import os
import re
import sys

import scope_changes
import scope_marks
import scope_model
import scope_row_files
import scope_rows
import scope_trees

HERE = os.path.dirname(os.path.abspath(__file__))
ROOT = os.path.dirname(HERE)
QUESTIONS = ("places", "names", "binders", "stores", "deletes", "reads", "locals", "scopes", "listed")
LARGEST = 30


def text(name):
    return bytes(name).decode()


def nodes_kinds():
    source = open(os.path.join(ROOT, "crates/tree_nodes/src/kind.rt")).read()
    return re.findall(r"^    (\w+),$", source, re.M)


class Program:
    """A program, its tree, and what Python says of it."""

    def __init__(self, source, known):
        self.source = source
        marks = scope_marks.Marks(source, known)
        self.made = marks.tree
        self.tree = scope_model.Tree(marks.tree)
        self.asked = marks.asked_names()
        listed = [scope_marks.grouped(found) for found in (marks.binders(), marks.loads(), marks.stores(), marks.deletes())]
        self.expected = {
            "places": marks.places(), "names": marks.names_read(), "binders": marks.binders(), "stores": marks.stores(),
            "deletes": marks.deletes(), "reads": marks.leads(), "scopes": marks.scopes(), "listed": listed,
            "locals": [[x for x in self.asked if x in found] for _, found in marks.names()],
        }

    def answer(self, m, question):
        t, every = self.tree, range(len(self.tree.nodes))
        if question == "places":
            return [(n, m["around"](t, n)) for n, _ in self.expected["places"]]
        if question == "names":
            return [(n, text(x[1])) for n in every for x in [m["spelled"](t, n)] if x != "None"]
        if question in ("binders", "stores", "deletes"):
            mark = m[{"binders": "binder_mark", "stores": "store_mark", "deletes": "delete_mark"}[question]]
            return [(n, x[1].scope, text(x[1].name)) for n in every for x in [mark(t, n)] if x != "None"]
        if question == "reads":
            said = [(n, m["answer_of"](t, n)) for n in every]
            return [(n, a if isinstance(a, str) else "%s %d" % a) for n, a in said if a != "Nowhere"]
        opened = [x[1] for n in every for x in [m["opened_by"](t, n)] if x != "None"]
        if question == "locals":
            return [[x for x in self.asked if m["is_local"](t, s, tuple(x.encode()))] for s in opened]
        if question == "scopes":
            return [(s, None if x == "None" else x[1]) for s in opened for x in [m["outer"](t, s)]]
        out = []
        for name, found in zip(("binders_of", "loads_of", "stores_of", "deletes_of"), self.expected["listed"]):
            scoped = name in ("binders_of", "loads_of")
            out.append([((s, x), list(m[name](t, *((s,) if scoped else ()), tuple(x.encode())))) for (s, x), _ in found])
        return out


# what Python's compiler refuses and the rules accept: where each binder binds, by the rules
REFUSED = {
    "def f(x):\n    def g():\n        global x\n        nonlocal x\n        x = 1\n": [(1, 0, "f"), (2, 1, "x"), (3, 1, "g"), (9, 0, "x")],
    "def f():\n    nonlocal x\n    x = 1\n": [(1, 0, "f")],
    "x = 1\nclass C:\n    x = 2\n    def f():\n        nonlocal x\n        x = 3\n": [(2, 0, "x"), (4, 0, "C"), (6, 4, "x"), (8, 4, "f")],
    "def f(x):\n    global x\n": [(1, 0, "f"), (2, 0, "x")],
}


class Refused(Program):
    """A program that has no symbol table."""

    def __init__(self, source):
        self.source = source
        self.made = scope_trees.Trees().module(ast.parse(source))
        self.tree = scope_model.Tree(self.made)
        self.asked, self.expected = [], {"binders": REFUSED[source]}


def programs():
    known, out = scope_rows.builtins(), []
    for source in open(os.path.join(HERE, "scope_candidates.txt")).read().split("----\n"):
        program = Program(source, known)
        if len(program.tree.nodes) <= LARGEST:
            out.append(program)
    return out + [Refused(source) for source in REFUSED]


FILES = scope_model.texts()


def refusing(change):
    """The questions that refuse a change: pairs of a program's number and a question; None where it is no definition."""
    try:
        m = scope_model.model(scope_changes.applied(FILES, change))
    except (KeyError, AssertionError, SyntaxError):
        return None
    out = []
    for number, program in enumerate(PROGRAMS):
        program.tree.kept = {}
        for question in program.expected:
            try:
                if program.answer(m, question) != program.expected[question]:
                    out.append((number, question))
            except (TypeError, AttributeError, RecursionError, KeyError, IndexError):
                return None
    return out


def weight(row):
    number, question = row
    size = len(PROGRAMS[number].tree.nodes)
    return {"places": 4, "names": 1, "scopes": 1}.get(question, 2) * (4 + size)


def chosen(table):
    """Rows that refuse each change, the cheapest for what they refuse first."""
    left, rows = dict(table), []
    while left:
        gain = {}
        for found in left.values():
            for row in found:
                gain[row] = gain.get(row, 0) + 1
        best = max(gain, key=lambda row: (gain[row] / weight(row), -row[0], row[1]))
        rows.append(best)
        left = {change: found for change, found in left.items() if best not in found}
    for row in list(rows):
        others = set(rows) - {row}
        if all(others & set(found) for found in table.values()):
            rows.remove(row)
    return rows


def every_change():
    return list(scope_changes.changes(FILES)) + list(scope_changes.further_changes(FILES))


def choose(count):
    changes = every_change()
    for program in PROGRAMS:
        m = scope_model.model(FILES)
        for question in program.expected:
            found = program.answer(m, question)
            if found != program.expected[question]:
                print("differs", program.source, question, found, program.expected[question])
    with multiprocessing.Pool(count) as pool:
        found = pool.map(refusing, changes, 20)
    table = {c: f for c, f in zip(changes, found) if f}
    rows = chosen(table)
    print(len(changes), "changes,", sum(f is None for f in found), "no definitions,", len(table), "refused by", len(rows), "rows")
    by_program = {}
    for number, question in sorted(rows):
        by_program.setdefault(number, []).append(question)
    with open(os.path.join(HERE, "scope_chosen.txt"), "w") as out:
        json.dump([[PROGRAMS[n].source, questions] for n, questions in by_program.items()], out, indent=1)
    print(len(by_program), "programs")
    for change, refused in zip(changes, found):
        if refused == []:
            print("passes", change[0], change[1] + 1, "|", change[2], "|", change[3].split("\n")[0])


def read_chosen():
    """The programs of scope_chosen.txt, each with its questions."""
    by_source = {program.source: program for program in PROGRAMS}
    with open(os.path.join(HERE, "scope_chosen.txt")) as file:
        return [(by_source[source], questions) for source, questions in json.load(file)]


def row_refusing(change):
    """The first chosen row that refuses a change: its question and number."""
    try:
        m = scope_model.model(scope_changes.applied(FILES, change))
        for question in scope_row_files.GROUPS:
            for number, (program, questions) in enumerate(read_chosen(), 1):
                if question in questions:
                    program.tree.kept = {}
                    if program.answer(m, question) != program.expected[question]:
                        return f"{scope_row_files.GROUPS[question][0]} {number}"
    except (KeyError, AssertionError, SyntaxError, TypeError, AttributeError, RecursionError, IndexError):
        return "no definition"
    return "none"


def list_changes(changes):
    for change in changes:
        print(" | ".join([row_refusing(change), f"{change[0]} {change[1] + 1}", change[2], change[3].split("\n")[0]]))


PROGRAMS = programs()

if __name__ == "__main__":
    if sys.argv[1] == "choose":
        choose(int(sys.argv[2]) if len(sys.argv) > 2 else 2)
    elif sys.argv[1] == "write":
        print(scope_row_files.write_all(read_chosen()))
    elif sys.argv[1] == "list":
        list_changes(every_change())
    elif sys.argv[1] == "kinds":
        list_changes(scope_changes.added_kinds(FILES, nodes_kinds()))
