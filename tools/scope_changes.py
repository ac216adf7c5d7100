"""Changed definitions: each differs from those of scope_rules in one place.

A change is a file, the line that is changed, and the new line, so that it can be tried on the definitions themselves.
Used by scope_choice.py.
"""
import re

import scope_model

ONE_FOR_ANOTHER = [
    ["is_class", "is_def", "is_comprehension", "opens", "is_parameter", "is_around_def", "is_in_body"],
    ["is_handler", "is_annotated", "is_as_name", "is_alias", "is_walrus", "is_global", "is_nonlocal", "is_binder", "is_read"],
    ["is_group", "is_delete", "is_attribute_target", "is_read_name"],
    ["declares_global", "declares_nonlocal", "has"],
    ["binds", "makes_local", "spelled", "name_of"],
    ["local_mark", "global_mark", "nonlocal_mark", "binder_mark"],
    ["load_mark", "binder_mark", "store_mark", "delete_mark"],
    ["around", "own_scope"],
    ["is_deleted", "is_bare"],
    ["begins_private", "ends_special"],
    ["first", "second"],
    ["list_any", "list_all"],
    ["Local", "Free"],
    ["Within", "Beside"],
    ["Global", "Builtin", "Nowhere"],
]
NUMBERS = ("n", "q", "d", "s", "own", "o", "k", "m")
DROPPED = ("drop", "before_dot", "bare", "option_map", "read_at", "not", "prefixed", "mangled")
CONSTANTS = {"Bool": ["true", "false"], "ℕ": ["0"], "Option": ["None"], "List": ["[]"], "Where": ["Global", "Nowhere"], "Step": []}


# changes that are no change of one word: (file, part of a line, what stands there then)
FURTHER = [
    ("Declaring", "if declares_global t s x then Some 0 else (if declares_nonlocal t s x then owner_outside t s x else Some s)",
     "if declares_nonlocal t s x then owner_outside t s x else (if declares_global t s x then Some 0 else Some s)"),
    ("Declaring", "find (is_owner t x) (drop 1 (chain t s))", "find (is_owner t x) (reverse (drop 1 (chain t s)))"),
    ("Declaring", "find (is_owner t x) (drop 1 (chain t s))", "Some (unwrap_or (find (is_owner t x) (drop 1 (chain t s))) 0)"),
    ("Declaring", "find (is_owner t x) (drop 1 (chain t s))", "Some (unwrap_or (find (is_owner t x) (drop 1 (chain t s))) s)"),
    ("Declaring", "is_def (kind_of t o) && has t o x", "opens (kind_of t o) && has t o x"),
    ("Declaring", "is_def (kind_of t o) && has t o x", "is_def (kind_of t o) && some_node (local_mark t) t o x"),
    ("Reading", "(declares_global t s x || has t s x)", "((s == own && declares_global t s x) || has t s x)"),
    ("Reading", "(declares_global t s x || has t s x)", "((not (is_class (kind_of t s)) && declares_global t s x) || has t s x)"),
    ("Reading", "s == 0 || declares_global t s x then at_module t x", "s == 0 || (s == own && declares_global t s x) then at_module t x"),
    ("Mangling", "find (λ c. is_class (kind_of t c)) (chain t s)", "find (λ c. is_class (kind_of t c)) (reverse (chain t s))"),
    ("Mangling", "prefixed [] x = x", "prefixed [] x = 95 ∷ x"),
    ("Mangling", "prefixed [] x = x", "prefixed [] x = 95 ∷ 95 ∷ x"),
]


def written(e):
    """An expression as text."""
    kind = e[0]
    if kind == "if":
        return f"(if {written(e[1])} then {written(e[2])} else {written(e[3])})"
    if kind == "λ":
        return f"(λ {e[1]}. {written(e[2])})"
    if kind == "sign":
        return f"({written(e[2])} {e[1]} {written(e[3])})"
    if kind == "record":
        return "(record { " + "; ".join(f"{k} = {written(v)}" for k, v in e[1].items()) + " })"
    if kind == "call":
        return "(" + " ".join(written(part) for part in e[1:]) + ")"
    if kind == "field":
        return f"{written(e[1])}.{e[2]}"
    return {"number": lambda: str(e[1]), "list": lambda: "[]", "kind": lambda: "kinds." + e[1], "name": lambda: e[1]}[kind]()


def no(e):
    return ("call", ("name", "not"), e)


def changed(e, numbers):
    """The expressions that differ from this one in one place."""
    kind = e[0]
    if kind == "if":
        yield from [e[2], e[3], ("if", e[1], e[3], e[2])]
    if kind == "sign" and e[1] in ("&&", "||"):
        yield from [e[2], e[3], ("sign", {"&&": "||", "||": "&&"}[e[1]], e[2], e[3])]
    elif kind == "sign" and e[1] == "==":
        yield no(e)
    elif kind == "sign" and e[1] in ("∷", "++"):
        yield from [e[3]] if e[1] == "∷" else [e[2], e[3]]
    if kind == "number":
        yield from [("number", n) for n in (e[1] + 1, e[1] - 1) if n >= 0]
    if kind == "name" and e[1] in numbers:
        yield from [("name", other) for other in numbers if other != e[1]]
    if kind == "name":
        for group in ONE_FOR_ANOTHER:
            if e[1] in group:
                yield from [("name", other) for other in group if other != e[1]]
    if kind == "call" and e[1][0] == "name" and e[1][1] in DROPPED:
        yield e[-1]
    if kind == "call" and e[1] == ("name", "Some"):
        yield ("name", "None")
    for place, part in enumerate(e):
        if isinstance(part, tuple):
            for other in changed(part, numbers):
                yield e[:place] + (other,) + e[place + 1:]
        if isinstance(part, dict):
            for key, value in part.items():
                for other in changed(value, numbers):
                    yield (kind, {**part, key: other})


def variables(patterns):
    for p in patterns:
        if p[0] == "name" and p[1] not in scope_model.CONSTRUCTORS:
            yield p[1]
        yield from variables([q for q in p[1:] if isinstance(q, tuple)])


def result(text, name):
    found = re.search(rf"^(?:unfoldable|abbrev) pub {name} : (.*)$", text, re.M)
    return re.sub(r"[()].*", "", found.group(1).split("→")[-1].strip()).split()[0] if found else ""


def changes(files):
    """All changes of these texts, each once: (file, line, old, new)."""
    for file in scope_model.FILES:
        lines, seen = files[file].split("\n"), set()
        for name, patterns, body, number in scope_model.clauses(files[file]):
            old = lines[number]
            left = old.split(" = ", 1)[0]
            numbers = [v for v in variables(patterns) if v in NUMBERS]
            bodies = [("name", word) if word != "[]" else ("list",) for word in CONSTANTS.get(result(files[file], name), [])]
            if "0" in CONSTANTS.get(result(files[file], name), []):
                bodies = [("number", 0)]
            known = set(re.findall(r"\w+", "\n".join(lines[:number + 1]))) | {"true", "false", "not"}
            for other in bodies + list(changed(body, numbers)):
                new = f"{left} = {written(other)}"
                if new not in seen and other != body and set(re.findall(r"[a-zA-Z_]\w*", written(other))) <= known:
                    seen.add(new)
                    yield file, number, old, new


def further_changes(files):
    """The changes above, each as the others."""
    for file, part, new in FURTHER:
        for number, old in enumerate(files[file].split("\n")):
            if part in old and not old.startswith("--"):
                yield file, number, old, old.replace(part, new)


def added_kinds(files, kinds):
    """Each table of kinds with each kind that it has not: the kind's row stands before that of all other kinds."""
    for file in scope_model.FILES:
        for number, line in enumerate(files[file].split("\n")):
            found = re.match(r"(\w+) kind = false$", line)
            if found:
                for kind in kinds:
                    row = f"{found.group(1)} kinds.{kind} = "
                    if row not in files[file]:
                        yield file, number, line, row + "true\n" + line


def applied(files, change):
    file, number, _, new = change
    lines = files[file].split("\n")
    lines[number] = new
    return {**files, file: "\n".join(lines)}
