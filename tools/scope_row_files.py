"""Writes the rows that scope_choice.py has chosen, as the files of the crate scope_rows."""
import os
import re

ROOT = os.path.dirname(os.path.dirname(os.path.abspath(__file__)))
CRATE = os.path.join(ROOT, "crates/scope_rows")
MARKS = ("spelled", "binder_mark", "store_mark", "delete_mark")
# question: its file, the law, the clause's name, what the file says
GROUPS = {
    "names": ("Names", "names_are_read_as_in_python", "Names of small programs, and how they are read where they stand."),
    "binders": ("Binders", "names_are_bound_as_in_python", "Small programs, and which of their nodes bind a name in which scope."),
    "reads": ("Reads", "reads_lead_as_in_python", "Small programs, and where their reads lead."),
    "locals": ("Locals", "names_are_local_as_in_python", "Small programs, and the names that are local to each of their scopes."),
    "listed": ("Lists", "lists_are_as_in_python", "Small programs, and the nodes that bind, read, store and delete each name."),
    "stores": ("Stores", "attributes_are_stored_as_in_python", "Small programs, and the attributes that they store."),
    "deletes": ("Deletes", "attributes_are_deleted_as_in_python", "Small programs, and the attributes that they delete."),
    "scopes": ("Scopes", "scopes_are_opened_as_in_python", "Small programs, their scopes, and the scope around each."),
    "places": ("Places", "nodes_stand_as_in_python", "Small programs, and the scope in which each node stands."),
}
ASKED = {"names": "spellings", "binders": "binders", "reads": "reads", "stores": "stores", "deletes": "deletes", "scopes": "scopes"}


def many(items):
    return " ∷ ".join(list(items) + ["[]"])


def grouped(items):
    found = many(items)
    return found if found == "[]" else f"({found})"


def codes(name):
    return '(codes "%s")' % name.replace('"', "'")


def answer(a):
    return a if " " not in a else "(%s (record { 0 = %s }))" % tuple(a.split())


def trees(kids):
    if not kids:
        return "none"
    (kind, name, inner), rest = kids[0], kids[1:]
    node = f"(plain kinds.{kind})" if name is None else f"(named kinds.{kind} {codes(name)})"
    return f"(tree {node} {trees(inner)} {trees(rest)})"


def facts(question, number, program):
    """The equations of a row."""
    found, t = program.expected[question], f"program{number}"
    if question == "places":
        return [f"map (around {t}) ({many(str(n) for n, _ in found)}) ≡ {many(str(s) for _, s in found)}"]
    if question == "names":
        return [f"spellings {t} ≡ {many(f'read {n} {codes(x)}' for n, x in found)}"]
    if question in ("binders", "stores", "deletes"):
        return [f"{question} {t} ≡ {many(f'mark {n} {s} {codes(x)}' for n, s, x in found)}"]
    if question == "reads":
        return [f"reads {t} ≡ {many(f'leads {n} {answer(a)}' for n, a in found)}"]
    if question == "scopes":
        return [f"scopes {t} ≡ {many(f'inside {s} ' + ('None' if o is None else f'(Some {o})') for s, o in found)}"]
    if question == "locals":
        told = many(grouped(map(codes, xs)) for xs in found)
        return [f"locals {t} {grouped(map(codes, program.asked))} ≡ {told}"]
    out = []
    for word, groups in zip(("binders_of", "loads_of", "stores_of", "deletes_of"), found):
        scoped = word in ("binders_of", "loads_of")
        for (scope, name), nodes in groups:
            out.append(f"{word} {t} {f'{scope} ' if scoped else ''}{codes(name)} ≡ {many(map(str, nodes))}")
    return out


def row_names(question, number, program):
    count = len(facts(question, number, program))
    return [f"Row{number}"] if question != "listed" else [f"Row{number}{chr(97 + i)}" for i in range(count)]


def unfoldables():
    out, uses = [], []
    for name in ("Kinds", "Places", "Mangling", "Binding", "Marks", "Declaring", "Reading", "Answers"):
        text = open(os.path.join(ROOT, "crates/scope_rules/specs", name + ".antt")).read()
        words = re.findall(r"^unfoldable pub (\w+) :", text, re.M)
        out += words
        uses.append("use Rattle.scope_rules.specs.%s.{%s}" % (name, ", ".join(words)))
    return out, uses


def imports(text, sources):
    """The use lines of those words that stand in the text."""
    words = set(re.findall(r"\w+", re.sub(r'kinds\.\w+|"[^"]*"', "", text))) | {w for w in ("◌≡◌", "[]", "◌∷◌") if w.strip("◌") in text}
    out = []
    for path, offered in sources:
        used = [w for w in offered if w in words]
        if used:
            out.append("use Rattle.%s.{%s}" % (path, ", ".join(used)))
    return "\n".join(out)


def specs(question, rows, home):
    """The definition file of a question: rows are (number, program)."""
    file, law, said = GROUPS[question]
    body = []
    for number, program in rows:
        if home[number] == question:
            body.append("\n".join("-- " + line for line in program.source.rstrip().split("\n")))
            body.append(f"abbrev pub program{number} : Tree\nprogram{number} = record {{ node = plain kinds.Module; kids = {trees(program.made[2])} }}\n")
        for name, fact in zip(row_names(question, number, program), facts(question, number, program)):
            body.append(f"abbrev pub {name} : Type 0\n{name} = {fact}\n")
    fields = [name for number, program in rows for name in row_names(question, number, program)]
    body.append(f"-- all of them\npub record {file}Hold : Type 0 where\n" + "\n".join(f"  pub {f.lower()} : {f}" for f in fields) + "\n")
    text = "\n".join(body)
    others = {}
    for number, _ in rows:
        if home[number] != question:
            others.setdefault(GROUPS[home[number]][0], []).append(f"program{number}")
    sources = [
        ("std.specs.Prelude", ["◌≡◌", "[]", "◌∷◌", "map", "Some", "None", "codes"]),
        ("tree_nodes.specs.Trees", ["none", "tree", "Tree"]),
        ("scope_rules.specs.declared.scope.Where.TheVariants", ["Local", "Free", "Global", "Builtin"]),
        ("scope_rules.specs.Places", ["around"]),
        ("scope_rules.specs.Answers", ["binders_of", "loads_of", "stores_of", "deletes_of"]),
        ("scope_rows.specs.Questions", ["plain", "named", "spellings", "binders", "reads", "locals", "stores", "deletes", "scopes", "read", "mark", "leads", "inside"]),
    ] + [(f"scope_rows.specs.{name}", programs) for name, programs in others.items()]
    code = "\n".join(line for line in text.split("\n") if not line.startswith("--"))
    kinds = "use Rattle.tree_nodes.specs.declared.kind.Kind.TheVariants as kinds\n" if "kinds." in code else ""
    head = f"-- {said} Expected values\n-- are those of Python's `symtable` and `ast`; tools/scope_choice.py writes this file.\n"
    return head + kinds + imports(code, sources) + "\n\n" + text


def proofs(question, rows):
    file = GROUPS[question][0]
    words, uses = unfoldables()
    fields = [name for number, program in rows for name in row_names(question, number, program)]
    out = ["-- Each row, computed from the definitions. tools/scope_choice.py writes this file."]
    out += ["use Rattle.std.proofs.Common.{refl}", "use Rattle.tree_nodes.specs.Trees.{entries, entry_at}"] + uses
    out += ["use Rattle.scope_rows.specs.%s.{%s, %sHold}" % (file, ", ".join(fields), file), ""]
    for f in fields:
        out += [f"{f.lower()} : {f}", "unfolding entries entry_at " + " ".join(words), f"{f.lower()} = refl", ""]
    out += [f"pub hold : {file}Hold", "hold = record { " + "; ".join(f"{f.lower()} = {f.lower()}" for f in fields) + " }", ""]
    return "\n".join(out)


def write(path, text):
    os.makedirs(os.path.dirname(os.path.join(CRATE, path)), exist_ok=True)
    open(os.path.join(CRATE, path), "w").write(text)


def write_all(chosen):
    """Writes the rows: chosen are (program, questions)."""
    rows, home = {}, {}
    for question in GROUPS:
        for number, (program, questions) in enumerate(chosen, 1):
            if question in questions:
                rows.setdefault(question, []).append((number, program))
                home.setdefault(number, question)
    files = []
    for question, found in rows.items():
        file, law, _ = GROUPS[question]
        files.append(file)
        write(f"specs/{file}.antt", specs(question, found, home))
        write(f"proofs/{file}Rows.antt", proofs(question, found))
        write(
            f"proofs/rows/{law}/Answers.antt",
            f"use Rattle.scope_rows.proofs.{file}Rows.{{hold}}\nuse Rattle.scope_rows.proofs.rows.{law}.Goals as goal\n\npub returns : goal.returns\nreturns c = hold\n",
        )
    write("specs/Lib.antt", "".join(f"pub mod {f}\n" for f in sorted(files + ["Questions"])))
    write("proofs/Lib.antt", "".join(f"pub mod {f}\n" for f in sorted(f"{f}Rows" for f in files)))
    return list(rows)
