"""Rows of signatures and calls: expected values are those of Python's own `inspect.signature(..).bind`.

    call_rows.py    the rows as a table for a test, to standard output

A call that fits has for each parameter what it gets and for each keyword what becomes of it; one that does not fit has
the problem that `bind` names. Each row is tried by a real call too. Where `bind` and the call differ the row is left out
and told on standard error: `bind` refuses a keyword with the name of a parameter before `/`, which a real call gives to `**`.
"""
import ast
import inspect
import itertools
import re
import sys

import scope_trees

SIGNATURES = [
    "", "a", "a, b", "a=1", "a, b=2", "a=1, b=2", "a, b, c=3", "*args", "a, *args", "a, b=2, *args", "**options", "a, **options",
    "a=1, **options", "*args, **options", "a, *args, **options", "*, a", "*, a=1", "a, *, b", "a, *, b=2", "a=1, *, b, c=3",
    "*args, a", "*args, a=1", "a, *args, b=2, **options", "a, /", "a=1, /", "a, /, b", "a, b=2, /", "a, /, b=2, *, c",
    "a, /, **options", "a, /, *args, b, **options", "a, b, /, c, *, d=4", "self", "self, a", "self, a=1, *args",
]
CALLS = [
    "", "1", "1, 2", "1, 2, 3", "a=1", "b=1", "1, a=2", "1, b=2", "1, c=3", "a=1, b=2", "b=2, a=1", "1, 2, b=3", "1, 2, c=3",
    "x=1", "1, x=2", "1, 2, d=3", "b=1, c=2, x=3",
]
# Of the pairs of signature and call, and whether a receiver comes first, one in so many is a row.
PLAIN_STEP, RECEIVED_STEP = 4, 11
# Programs with a private name in a class, and how the function of their first `def` is named in Python.
PRIVATE = [
    ("class C:\n    def f(__x): pass\nC.f(__x=1)", "C", False),
    ("class C:\n    def f(__x): pass\nC.f(_C__x=1)", "C", False),
    ("class C:\n    def f(__x): pass\nC.f(1)", "C", False),
    ("class C:\n    def f(self, *, __x=1): pass\nC().f(_C__x=2)", "C", True),
    ("class C:\n    def f(self, *, __x=1): pass\nC().f(__x=2)", "C", True),
    ("class C:\n    def f(self, __x__): pass\nC().f(__x__=2)", "C", True),
    ("class __C:\n    def f(__x): pass\n__C.f(_C__x=1)", "__C", False),
    ("class _C:\n    def f(__x, **options): pass\n_C.f(1, __x=2)", "_C", False),
    ("class __:\n    def f(__x): pass\n__.f(__x=1)", "__", False),
    ("class C:\n    def f(a, __x=1, /, **options): pass\nC.f(1, _C__x=2)", "C", False),
]
# Calls that count as ones with `*` or `**`, and one in a class that does not.
STARRED = [
    ("def f(a): pass\nf(*[])", True),
    ("def f(a): pass\nf(**{})", True),
    ("def f(a): pass\nf(1, *[], b=2)", True),
    ("class C:\n    def f(__x): pass\n    f(__x=1)", True),
    ("class C:\n    def f(a): pass\n    f(1, *[], a=2)", True),
    ("class C:\n    def f(a):\n        f(1, __x=2)", True),
    ("class __:\n    def f(a): pass\n    f(__x=1)", True),
]


def functions(source):
    return [node for node in ast.walk(ast.parse(source)) if isinstance(node, (ast.FunctionDef, ast.Lambda))]


def outcome(function, count, keywords, received):
    """What the parameters and the keywords get by `bind`, or the problem that it names."""
    receiver = [("R",)] if received else []
    plain = ["a%d" % n for n in range(count)]
    named = {name: "a%d" % (count + n) for n, name in enumerate(keywords)}
    signature = inspect.signature(function)
    names = list(signature.parameters)
    try:
        function(*receiver, *plain, **named)
        fits = True
    except TypeError:
        fits = False
    try:
        bound = signature.bind(*receiver, *plain, **named)
    except TypeError as error:
        found = problem(str(error), signature, names, keywords)
        takes_rest = any(p.kind == p.VAR_KEYWORD for p in signature.parameters.values())
        return not fits and not (takes_rest and found.startswith("hidden")), found
    params, keys = [], {}
    for number, (name, parameter) in enumerate(signature.parameters.items()):
        value = bound.arguments.get(name)
        if parameter.kind == parameter.VAR_POSITIONAL:
            params.append("*")
        elif parameter.kind == parameter.VAR_KEYWORD:
            params.append("*")
            keys.update((given, "*") for given in (value or {}).values())
        elif name in bound.arguments:
            params.append("R" if value == ("R",) else value)
            keys[value] = "t%d" % number
        else:
            params.append("D")
    return fits is True, " ".join(["fits", *params, ";", *(keys[named[name]] for name in keywords)])


def problem(text, signature, names, keywords):
    found = re.search(r"'(\w+)'", text)
    name = found.group(1) if found else None
    if text.startswith("missing a required"):
        return "missing %d" % names.index(name)
    if text.startswith("too many positional"):
        return "surplus"
    if text.startswith("multiple values"):
        return "twice %d" % names.index(name)
    hidden = name in names and signature.parameters[name].kind == inspect.Parameter.POSITIONAL_ONLY
    return "%s %d" % ("hidden" if hidden else "unexpected", keywords.index(name))


def postfix(tree):
    words = [word for kid in tree[2] for word in postfix(kid)]
    name = "" if tree[1] is None else ":" + tree[1].replace(" ", "_").replace('"', "'")
    return words + ["%s%s/%d" % (tree[0], name, len(tree[2]))]


def preorder(tree):
    return [tree] + [node for kid in tree[2] for node in preorder(kid)]


def row(source, received, expected):
    """The program as a comment, and its tree with the numbers of the function and of the call, and what is expected."""
    tree = scope_trees.Trees().module(ast.parse(source))
    nodes = preorder(tree)
    def_ = next(n for n, node in enumerate(nodes) if node[0] in ("FunctionDef", "Lambda"))
    call = next(n for n, node in enumerate(nodes) if node[0] == "Call")
    print("# " + source.replace("\n", " / ").replace('"', "'"))
    print(" | ".join([" ".join(postfix(tree)), "%d %d %s" % (def_, call, "received" if received else "plain"), expected]))


def parts(call):
    node = ast.parse("f(%s)" % call).body[0].value
    return len(node.args), [keyword.arg for keyword in node.keywords]


def told(source, function, count, keywords, received):
    sure, expected = outcome(function, count, keywords, received)
    if sure:
        row(source, received, expected)
        return 1
    print("left out: %r, by bind %s" % (source, expected), file=sys.stderr)
    return 0


def main():
    print("// Signatures and calls, each with its tree, kids before their parents, the numbers of the function and of the call,")
    print("// whether a receiver comes first, and what the parameters and keywords get, or what does not fit.")
    print("// Written by tools/call_rows.py: expected values are those of Python's `inspect.signature(..).bind`.\n")
    print('pub const CALLS: &str = "\\')
    count = 0
    pairs = list(itertools.product(SIGNATURES, CALLS))
    for received, step in ((False, PLAIN_STEP), (True, RECEIVED_STEP)):
        for signature, call in pairs[::step]:
            plain, keywords = parts(call)
            source = "def f(%s): pass\nf(%s)" % (signature, call)
            space = {}
            exec(source.split("\n")[0], space)
            count += told(source, space["f"], plain, keywords, received)
    for signature, call in (("a, b=2", "1"), ("*args", "1, 2"), ("a, /, *, b", "1, b=2"), ("**options", "x=1")):
        plain, keywords = parts(call)
        source = "g = lambda %s: 1\ng(%s)" % (signature, call)
        space = {}
        exec(source.split("\n")[0], space)
        count += told(source, space["g"], plain, keywords, False)
    for source, name, received in PRIVATE:
        space = {}
        exec(source.rsplit("\n", 1)[0], space)
        plain, keywords = parts(source.rsplit("f(", 1)[1][:-1])
        count += told(source, space[name].__dict__["f"], plain, keywords, received)
    for source, starred in STARRED:
        row(source, False, "starred")
        count += 1
    print('";')
    print("%d rows" % count, file=sys.stderr)


if __name__ == "__main__":
    main()
