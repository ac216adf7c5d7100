#!/usr/bin/env python3
"""Writes the table of trees that tries the grammar: crates/py_grammar/proofs/TreeRows*.antt.

Each row is a logical line with the nodes that Python's own parser (`ast`) gives it, in preorder: the kind, the number of
kids, the column where the node begins, and the name. The proofs compute the same from the definition's readers. A column
that `ast` does not tell is left out. Run it with Python 3.11 at the repository's top.
"""
import ast
import io
import os
import tokenize

import grammar_rows

LINES = """
a - (b - c) - d
(a - b) - c
(a + b) * c // d % e @ f / g
a << b >> c | d ^ e & f
(a and b) and c or not d
(a < b) < c
a is not b not in c <= d >= e != f == g is h in i
-a ** -b
+a, ~b
await a ** b
a if b else c if d else e
(a).b(c)[d].e
f(*a, b, c=1, *d, **e, g=2)
f(x for x in y)
f((x for x in y), 1)
f(a := 1 for a in b)
f(a := 1,)
x[(a, b)]
x[(a), b]
x[a,]
x[*a]
x[*a,]
x[a:b:c]
x[a::]
x[:, 1]
x[a:=1, b]
()
(a,)
(a)
(*a, b)
[*a, b,]
{**a, b: c}
{a := 1, *b}
{}
{a: b for a, b in c if d if e for g in h}
[x async for x in y]
{x for x in y}
(yield)
(yield a,)
((yield a),)
x = (yield a, b)
yield from a
x = y = yield *a, b
(a, b), [c, *d], e.f = g[h]
(a) = b
x: y = yield z
(x): int
a.b: c
x += yield
x **= a, b
x |= a
x >>= a
lambda a, b=1, /, c=2, *d, e, f=3, **g: a
lambda *, a: a
lambda: (yield)
"a" 'b'
b"a" b"b"
1 + 2j, None, True, False, ...
pass; break; continue;
return a, *b
raise a from b
global a, b
nonlocal a
del a, (b, c), [d], e.f, g[h]
assert a, b
import a.b as c, d
from ..a.b import (c as d, e,)
from ... import *
from .a import b
@a.b(c)
@a[b]
if a := b: pass
elif (a): b; c
else: a
while a: pass
for a, (b, c), *d in e, f: pass
for (a) in b: x = 1; y = 2
async for x in y: pass
try: pass
except: pass
except (a, b) as c: pass
except* a as b: pass
finally: pass
with (a, b): pass
with (a, b) as c: pass
with (a as b, c,): pass
with (a): pass
with a as (b, c), d as e[f]: pass
async with (a as b): pass
async with a, b: pass
def f(a, b: c = d, /, e: g = h, *i: *j, k: l, m=n, **o: p) -> q: return r
def f(*, a): pass
def f(): pass
async def f(a=1,): pass
class A(b, *c, d=e, **g): pass
class A: pass
match a, b:
match *a, b:
match (a):
match -a:
match[a] = b
case a | b as c if d := e:
case (a, b):
case (a,):
case (a):
case a, *b, c: pass
case *_, a:
case [a, *_]:
case []:
case -1 + 2j:
case {1: a, "b": c, d.e: f, **g}:
case a.b(c, d=e):
case a():
case "a" "b":
case b"a":
case None | True:
case _ | a.b:
case(a)
"""

# rows of one operator, and of several
ROWS = {
    ast.BitOr: ("BitwiseOr", None), ast.BitXor: ("BitwiseXor", None), ast.BitAnd: ("BitwiseAnd", None),
    ast.LShift: ("Shift", "LeftShift"), ast.RShift: ("Shift", "RightShift"), ast.Add: ("Sum", "Add"), ast.Sub: ("Sum", "Subtract"),
    ast.Mult: ("Product", "Multiply"), ast.Div: ("Product", "Divide"), ast.FloorDiv: ("Product", "FloorDivide"),
    ast.Mod: ("Product", "Modulo"), ast.MatMult: ("Product", "MatrixMultiply"),
}
ASSIGNED = {
    ast.Add: "Add", ast.Sub: "Subtract", ast.Mult: "Multiply", ast.Div: "Divide", ast.FloorDiv: "FloorDivide", ast.Mod: "Modulo",
    ast.MatMult: "MatrixMultiply", ast.LShift: "LeftShift", ast.RShift: "RightShift", ast.BitOr: "BitOr", ast.BitXor: "BitXor",
    ast.BitAnd: "BitAnd", ast.Pow: "Exponentiate",
}
COMPARED = {
    ast.Lt: "Less", ast.Gt: "Greater", ast.Eq: "Equal", ast.LtE: "LessEqual", ast.GtE: "GreaterEqual", ast.NotEq: "NotEqual",
    ast.In: "In", ast.NotIn: "NotIn", ast.Is: "Is", ast.IsNot: "IsNot",
}
SIGNS = {ast.Not: "Not", ast.UAdd: "UnaryPlus", ast.USub: "UnaryMinus", ast.Invert: "UnaryInvert"}
CONSTANTS = {None: "NoneLiteral", True: "TrueLiteral", False: "FalseLiteral", ...: "EllipsisLiteral"}
TARGETS = {"Name": "NameTarget", "Attribute": "AttributeTarget", "Subscript": "SubscriptTarget", "Starred": "StarredTarget", "Tuple": "TupleTarget", "List": "ListTarget"}
COMPREHENSIONS = {"ListComp": "ListComprehension", "SetComp": "SetComprehension", "GeneratorExp": "GeneratorExpression"}


class Nodes:
    """The nodes of a source text; columns are counted from where the line begins that is tried."""

    def __init__(self, source, shift):
        self.lines = source.split("\n")
        self.shift = shift

    def text(self, node):
        return self.lines[node.lineno - 1][node.col_offset:node.end_col_offset]

    def made(self, kind, kids, node=None, name=None):
        return kind, kids, node.col_offset - self.shift if node else None, name

    def each(self, nodes):
        return [self.expression(node) for node in nodes if node is not None]

    # ---- expressions

    def expression(self, node):
        kind, kids, name = self.parts(node, type(node).__name__)
        return self.made(kind, kids, node, name)

    def parts(self, node, form):
        """The kind, the kids and the name of an expression."""
        if form in TARGETS:
            kind = form if isinstance(node.ctx, ast.Load) else TARGETS[form]
            if form == "Name":
                return kind, [], node.id
            if form == "Attribute":
                return kind, [self.expression(node.value)], node.attr
            if form == "Subscript":
                return kind, [self.expression(node.value), self.subscript(node.slice)], None
            return kind, self.each([node.value] if form == "Starred" else node.elts), None
        if form in COMPREHENSIONS:
            return COMPREHENSIONS[form], [self.expression(node.elt)] + self.clauses(node), None
        return getattr(self, form)(node)

    def Constant(self, node):
        value = node.value
        if isinstance(value, (str, bytes)):
            return "StringLiteral" if isinstance(value, str) else "BytesLiteral", [], strings(self.text(node))
        if value is None or value is Ellipsis or isinstance(value, bool):
            return CONSTANTS[value], [], None
        return "NumberLiteral", [], self.text(node)

    def NamedExpr(self, node):
        return "NamedExpression", [self.expression(node.value)], node.target.id

    def IfExp(self, node):
        return "Conditional", self.each([node.body, node.test, node.orelse]), None

    def BoolOp(self, node):
        return "BoolOr" if isinstance(node.op, ast.Or) else "BoolAnd", self.each(node.values), None

    def UnaryOp(self, node):
        return SIGNS[type(node.op)], [self.expression(node.operand)], None

    def BinOp(self, node):
        if isinstance(node.op, ast.Pow):
            return "Power", self.each([node.left, node.right]), None
        return ROWS[type(node.op)][0], self.operands(node, ROWS[type(node.op)][0]), None

    def operands(self, node, row):
        """The operands of a row; one in brackets begins behind its row."""
        left = node.left
        more = isinstance(left, ast.BinOp) and ROWS.get(type(left.op), ("",))[0] == row and left.col_offset == node.col_offset
        operator = ROWS[type(node.op)][1]
        return (self.operands(left, row) if more else [self.expression(left)]) + ([self.made(operator, [])] if operator else []) + [self.expression(node.right)]

    def Compare(self, node):
        kids = [self.expression(node.left)]
        for operator, operand in zip(node.ops, node.comparators):
            kids += [self.made(COMPARED[type(operator)], []), self.expression(operand)]
        return "Comparison", kids, None

    def Await(self, node):
        return "Await", [self.expression(node.value)], None

    def Yield(self, node):
        return "Yield", self.each([node.value]), None

    def YieldFrom(self, node):
        return "YieldFrom", [self.expression(node.value)], None

    def Call(self, node):
        return "Call", [self.expression(node.func)] + self.arguments(node.args, node.keywords), None

    def DictComp(self, node):
        return "DictComprehension", [self.made("DictItem", self.each([node.key, node.value]))] + self.clauses(node), None

    def Dict(self, node):
        return "Dict", [self.made("DictItem" if key else "DictUnpack", self.each([key, value])) for key, value in zip(node.keys, node.values)], None

    def Set(self, node):
        return "Set", self.each(node.elts), None

    def Lambda(self, node):
        return "Lambda", self.parameters(node.args) + [self.expression(node.body)], None

    def clauses(self, node):
        return [self.made("AsyncComprehensionFor" if one.is_async else "ComprehensionFor", self.each([one.target, one.iter] + one.ifs)) for one in node.generators]

    def arguments(self, plain, keywords):
        placed = []
        for node in plain:
            star = isinstance(node, ast.Starred)
            placed.append((node.col_offset, self.made("StarArgument", [self.expression(node.value)], node) if star else self.expression(node)))
        for node in keywords:
            placed.append((node.col_offset, self.made("KeywordArgument" if node.arg else "DoubleStarArgument", [self.expression(node.value)], node, node.arg)))
        return [tree for _, tree in sorted(placed, key=lambda pair: pair[0])]

    # ---- subscripts

    def subscript(self, node):
        if isinstance(node, ast.Tuple) and not self.is_bracketed(node):
            kids = [self.subscript(item) for item in node.elts]
            alone = len(kids) == 1 and not self.lines[node.end_lineno - 1][node.end_col_offset - 1:].startswith(",")
            return kids[0] if alone else self.made("Slices", kids, node)
        return self.slice(node) if isinstance(node, ast.Slice) else self.expression(node)

    def slice(self, node):
        colon = [self.made("SliceColon", [])]
        second = colon + self.each([node.step]) if self.text(node).count(":") > 1 else []
        return self.made("Slice", self.each([node.lower]) + colon + self.each([node.upper]) + second, node)

    def is_bracketed(self, node):
        """One pair of brackets is around all of it."""
        text, depth = self.text(node), 0
        for place, letter in enumerate(text):
            depth += (letter in "([{") - (letter in ")]}")
            if depth == 0:
                return text[0] == "(" and place == len(text) - 1
        return False

    # ---- parameters

    def annotation(self, node):
        if node is None:
            return []
        return [self.made("StarAnnotation", [self.expression(node.value)]) if isinstance(node, ast.Starred) else self.made("Annotation", [self.expression(node)])]

    def parameters(self, given):
        plain = given.posonlyargs + given.args
        out = []
        for count, (one, default) in enumerate(zip(plain, [None] * (len(plain) - len(given.defaults)) + given.defaults), 1):
            out.append(self.made("Parameter", self.annotation(one.annotation) + self.each([default]), one, one.arg))
            if count == len(given.posonlyargs):
                out.append(self.made("PositionalOnlyMark", []))
        if given.vararg:
            out.append(self.made("StarParameter", self.annotation(given.vararg.annotation), None, given.vararg.arg))
        elif given.kwonlyargs:
            out.append(self.made("KeywordOnlyMark", []))
        for one, default in zip(given.kwonlyargs, given.kw_defaults):
            out.append(self.made("KeywordOnlyParameter", self.annotation(one.annotation) + self.each([default]), one, one.arg))
        if given.kwarg:
            out.append(self.made("DoubleStarParameter", self.annotation(given.kwarg.annotation), None, given.kwarg.arg))
        return out

    # ---- patterns

    def pattern(self, node):
        kind, kids = self.pattern_parts(node, type(node).__name__)
        return self.made(kind, kids, node, getattr(node, "name", None))

    def patterns(self, nodes):
        return [self.pattern(node) for node in nodes]

    def pattern_parts(self, node, form):
        if form == "MatchValue":
            return form, [self.expression(node.value)]
        if form == "MatchSingleton":
            return "MatchValue", [self.made(CONSTANTS[node.value], [], node)]
        if form == "MatchStar":
            return form if node.name else "MatchStarWildcard", []
        if form == "MatchMapping":
            items = [self.made("MatchItem", [self.expression(key), self.pattern(value)]) for key, value in zip(node.keys, node.patterns)]
            return form, items + ([self.made("MatchRest", [], None, node.rest)] if node.rest else [])
        if form == "MatchClass":
            named = [self.made("MatchKeyword", [self.pattern(one)], None, name) for name, one in zip(node.kwd_attrs, node.kwd_patterns)]
            return form, [self.expression(node.cls)] + self.patterns(node.patterns) + named
        if form == "MatchAs":
            return (form, [self.pattern(node.pattern)]) if node.pattern else ("MatchCapture" if node.name else "MatchWildcard", [])
        return form, self.patterns(node.patterns)

    # ---- statements

    def statements(self, nodes):
        return [self.statement(node) for node in nodes]

    def statement(self, node):
        form = type(node).__name__
        name = "." * node.level + (node.module or "") if form == "ImportFrom" else None
        return self.made("ExpressionStatement" if form == "Expr" else form, self.statement_kids(node, form), node, name)

    def statement_kids(self, node, form):
        if form in ("Expr", "Return"):
            return self.each([node.value])
        if form == "Assign":
            return self.each(node.targets + [node.value])
        if form == "AugAssign":
            return [self.expression(node.target), self.made(ASSIGNED[type(node.op)], []), self.expression(node.value)]
        if form == "AnnAssign":
            return [self.expression(node.target)] + self.annotation(node.annotation) + self.each([node.value])
        if form == "Raise":
            return self.each([node.exc, node.cause])
        if form in ("Global", "Nonlocal"):
            return [self.made("DeclaredName", [], None, name) for name in node.names]
        if form == "Delete":
            return self.each(node.targets)
        if form == "Assert":
            return self.each([node.test, node.msg])
        if form in ("Import", "ImportFrom"):
            return [self.alias(one) for one in node.names]
        return []

    def alias(self, node):
        if node.name == "*":
            return self.made("ImportWildcard", [], node)
        return self.made("Alias", self.as_name(node.asname), node, node.name)

    def as_name(self, name):
        return [self.made("AsName", [], None, name)] if name else []

    # ---- headers

    def header(self, node, head):
        """The parts of a header, and the statements behind it."""
        if head in ("If", "While"):
            return [self.expression(node.test)], node.body
        if head == "Elif":
            return [self.expression(node.orelse[0].test)], node.orelse[0].body
        if head in ("Else", "Finally", "Try"):
            return [], {"Else": node.orelse, "Finally": getattr(node, "finalbody", []), "Try": node.body}[head]
        if head in ("For", "AsyncFor"):
            return self.each([node.target, node.iter]), node.body
        if head in ("Except", "ExceptStar"):
            handler = node.handlers[0]
            return self.each([handler.type]) + self.as_name(handler.name), handler.body
        if head in ("With", "AsyncWith"):
            return [self.made("WithItem", self.each([item.context_expr, item.optional_vars])) for item in node.items], node.body
        if head in ("FunctionDef", "AsyncFunctionDef"):
            return self.parameters(node.args) + self.annotation(node.returns), node.body
        return self.arguments(node.bases, node.keywords), node.body


def strings(text):
    tokens = tokenize.generate_tokens(io.StringIO(text + "\n").readline)
    return " ".join(token.string for token in tokens if token.type == tokenize.STRING)


def trees_of(line, head):
    """The trees of a line's nodes and statements."""
    bare = line.rstrip().endswith(":")
    if head == "Match":
        source = line + "\n    case _:\n        pass\n"
        return [Nodes(source, 0).expression(ast.parse(source).body[0].subject)]
    if head == "Case":
        source = "match a:\n    " + line + ("\n        pass\n" if bare else "\n")
        nodes, case = Nodes(source, 4), ast.parse(source).body[0].cases[0]
        return [nodes.pattern(case.pattern)] + nodes.each([case.guard]) + ([] if bare else nodes.statements(case.body))
    if head == "Decorator":
        source = line + "\ndef f(): pass\n"
        return [("Decorator", [Nodes(source, 0).expression(ast.parse(source).body[0].decorator_list[0])], 0, None)]
    tail = "\n" + ("    pass\n" if bare else "") + ("finally:\n    pass\n" if head == "Try" else "")
    source = grammar_rows.PREFIXES.get(head, "") + line + tail
    body, nodes = ast.parse(source).body, Nodes(source, 0)
    if head == "Simple":
        return nodes.statements(body)
    parts, behind = nodes.header(body[0], head)
    return parts + ([] if bare else nodes.statements(behind))


def preorder(trees):
    for kind, kids, column, name in trees:
        yield kind, len(kids), column, name
        yield from preorder(kids)


def terminals(line):
    """The symbols of a line with their columns and texts."""
    skipped = (tokenize.NEWLINE, tokenize.NL, tokenize.ENDMARKER, tokenize.INDENT, tokenize.DEDENT)
    tokens = [token for token in tokenize.generate_tokens(io.StringIO(line + "\n").readline) if token.type not in skipped]
    return [(symbol.replace("Imaginary", "Number"), token.start[1], token.string) for symbol, token in zip(grammar_rows.symbols_of(line), tokens)]


def codes(text):
    return " ∷ ".join([str(ord(letter)) for letter in text] + ["[]"])


HEADER = """-- Lines with the nodes that Python's own parser gives them, in preorder, computed from the readers of the definition: rows
-- that tools/grammar_trees.py writes.
use Rattle.std.specs.Prelude.{List, [], ◌∷◌, Some, None, map}
use Rattle.std.proofs.Common.{◌≡◌, refl}
use Rattle.tree_nodes.specs.declared.kind.Kind.TheVariants as kinds
use Rattle.py_grammar.specs.declared.symbol.Symbol.TheVariants as s
use Rattle.py_grammar.proofs.TryingTrees.{Row, at, n, nodes_of_line, said}
%(uses)s
"""


def main():
    table = []
    lines = LINES.strip("\n").split("\n")
    # the lines of the other table that Python takes; in 3.11 `ast` tells no places within f-strings
    lines += [line for line, _, head in grammar_rows.rows() if head and 'f"' not in line and line not in lines]
    for line in lines:
        head = grammar_rows.accepted(line, grammar_rows.head_of(line))
        table.append((line, terminals(line), list(preorder(trees_of(line, head)))))
    readers = grammar_rows.names_of_readers()
    uses = "".join(f"use Rattle.py_grammar.specs.{name}.{{{', '.join(all_)}}}\n" for name, all_ in readers.items())
    unfolded = " ".join(name for all_ in readers.values() for name in all_)
    folder = os.path.join(os.path.dirname(__file__), "..", "crates", "py_grammar", "proofs")
    size = 40
    for first in range(0, len(table), size):
        with open(os.path.join(folder, f"TreeRows{first // size + 1}.antt"), "w", encoding="utf-8") as out:
            out.write(HEADER % {"uses": uses})
            out.write("abbrev rows : List Row\nrows =\n")
            for line, tokens, nodes in table[first:first + size]:
                shown = " ∷ ".join([f"at s.{symbol} {column} ({codes(text)})" for symbol, column, text in tokens] + ["[]"])
                told = " ∷ ".join([node_term(*node) for node in nodes] + ["[]"])
                out.write(f"    -- {line}\n    record {{ line = {shown}; nodes = {told} }} ∷\n")
            out.write("    []\n\n-- each line has the nodes that are said\n")
            out.write(f"rows_hold : map nodes_of_line rows ≡ map said rows\nunfolding {unfolded}\nrows_hold = refl\n")
    print(len(table), "rows")


def node_term(kind, kids, column, name):
    place = "None" if column is None else f"(Some {column})"
    called = "None" if name is None else f"(Some ({codes(name)}))"
    return f"n kinds.{kind} {kids} {place} {called}"


if __name__ == "__main__":
    main()
