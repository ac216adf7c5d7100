"""Rows that say where the reads of small programs lead: expected values are those of Python's `symtable`.

    scope_rows.py tests    the programs as a table for a test, to standard output
    scope_rows.py proofs   crates/scope_rules/proofs/Rows1.antt and on, which the check computes from the definitions
"""
import os
import re
import sys

import scope_trees

HERE = os.path.dirname(os.path.abspath(__file__))
ROOT = os.path.dirname(HERE)


def builtins():
    text = open(os.path.join(ROOT, "crates/scope_rules/src/builtin_names.rt")).read()
    return set(re.findall(r'^    "(\w+)",$', text, re.M))


def programs():
    text = open(os.path.join(HERE, "scope_programs.txt")).read()
    return [source for source in text.split("----\n")]


def comment(source):
    return "\n".join(("# " + line).rstrip() for line in source.rstrip().split("\n")).replace('"', "'").replace("\\", "")


def postfix(tree):
    words = [word for kid in tree[2] for word in postfix(kid)]
    name = "" if tree[1] is None else ":" + tree[1].replace(" ", "_").replace('"', "'").replace("\\", "")
    return words + ["%s%s/%d" % (tree[0], name, len(tree[2]))]


def tests():
    known = builtins()
    print("// Small programs, each with its tree, kids before their parents, where each read leads, and the names of each scope.")
    print("// Written by tools/scope_rows.py: expected values are those of Python's `symtable`.\n")
    print('pub const PROGRAMS: &str = "\\')
    for source in programs():
        answers = scope_trees.Answers(source, known)
        reads = " ".join("%d=%s" % (n, a.replace(" ", "")) for n, a in answers.reads())
        names = " ".join("%d=%s" % (n, ",".join(found)) for n, found in answers.names())
        print(comment(source))
        print(" | ".join([" ".join(postfix(answers.tree)), reads, names]))
    print('";')


HEAD = """-- Small programs, and where their reads lead by Python's `symtable`, computed from the definitions: rows that
-- tools/scope_rows.py writes.
use Rattle.std.proofs.Common.{◌≡◌, refl, ℕ, List, [], ◌∷◌, map}
use Rattle.std.specs.Prelude.{codes}
use Rattle.tree_nodes.specs.declared.kind.Kind.TheVariants as kinds
use Rattle.tree_nodes.specs.Trees.{none, tree, Tree, entries, entry_at}
use Rattle.scope_rules.specs.declared.scope.Where.{Where}
use Rattle.scope_rules.specs.declared.scope.Where.TheVariants.{Local, Free, Global, Builtin, Nowhere}
"""


def unfoldables():
    out, uses = [], []
    for name in ("Kinds", "Places", "Mangling", "Binding", "Marks", "Declaring", "Reading"):
        text = open(os.path.join(ROOT, "crates/scope_rules/specs", name + ".antt")).read()
        words = re.findall(r"^unfoldable pub (\w+) :", text, re.M)
        out += words
        uses.append("use Rattle.scope_rules.specs.%s.{%s}" % (name, ", ".join(words)))
    return out, uses


def antt(trees):
    if not trees:
        return "none"
    first, rest = trees[0], trees[1:]
    node = "(plain kinds.%s)" % first[0] if first[1] is None else "(named kinds.%s (codes \"%s\"))" % (first[0], first[1].replace('"', "'"))
    return "(tree %s %s %s)" % (node, antt(first[2]), antt(rest))


def proofs():
    known = builtins()
    words, uses = unfoldables()
    rows = []
    for source in programs():
        answers = scope_trees.Answers(source, known)
        if len(answers.nodes) <= 16 and answers.reads():
            rows.append((source, answers))
    rows = rows[:56]
    for part in range(0, len(rows), 8):
        out = [HEAD + "\n".join(uses) + "\nuse Rattle.scope_rules.proofs.Trying.{plain, named}\n"]
        for number, (source, answers) in enumerate(rows[part:part + 8]):
            reads = answers.reads()
            said = []
            for _, a in reads:
                said.append(a if " " not in a else "%s (record { 0 = %s })" % tuple(a.split()))
            out.append("\n".join("-- " + line for line in source.rstrip().split("\n")))
            out.append("abbrev program%d : Tree" % number)
            out.append("program%d = record { node = plain kinds.Module; kids = %s }\n" % (number, antt(answers.tree[2])))
            out.append("reads%d : map (resolved program%d) (%s ∷ []) ≡ %s ∷ []" % (number, number, " ∷ ".join(str(n) for n, _ in reads), " ∷ ".join(said)))
            out.append("unfolding entries entry_at " + " ".join(words))
            out.append("reads%d = refl\n" % number)
        path = os.path.join(ROOT, "crates/scope_rules/proofs/Rows%d.antt" % (part // 8 + 1))
        open(path, "w").write("\n".join(out))
        print(path)


if __name__ == "__main__":
    {"tests": tests, "proofs": proofs}[sys.argv[1]]()
