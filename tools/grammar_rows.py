#!/usr/bin/env python3
"""Writes the table of lines that tries the grammar: crates/py_grammar/proofs/Rows*.antt.

Each row is a logical line with the kind that Python's own parser (`ast`) gives it, or none where it refuses the line.
The proofs compute the same from the definition's readers. Run it with Python 3.11 at the repository's top.
"""
import ast
import io
import keyword
import os
import re
import tokenize

OPERATORS = {
    "+": "Plus", "-": "Minus", "*": "Star", "**": "DoubleStar", "/": "Slash", "//": "DoubleSlash", "%": "Percent",
    "@": "AtSign", "<<": "LeftShift", ">>": "RightShift", "&": "Ampersand", "|": "Bar", "^": "Caret", "~": "Tilde",
    ":=": "Walrus", "<": "Less", ">": "Greater", "<=": "LessEqual", ">=": "GreaterEqual", "==": "Equal",
    "!=": "NotEqual", "(": "LeftParen", ")": "RightParen", "[": "LeftBracket", "]": "RightBracket", "{": "LeftBrace",
    "}": "RightBrace", ",": "Comma", ":": "Colon", ".": "Dot", ";": "Semicolon", "=": "Assign", "->": "Arrow",
    "+=": "PlusAssign", "-=": "MinusAssign", "*=": "StarAssign", "/=": "SlashAssign", "//=": "DoubleSlashAssign",
    "%=": "PercentAssign", "@=": "AtAssign", "&=": "AmpersandAssign", "|=": "BarAssign", "^=": "CaretAssign",
    ">>=": "RightShiftAssign", "<<=": "LeftShiftAssign", "**=": "DoubleStarAssign", "...": "Ellipsis",
}
SOFT = {"match": "MatchWord", "case": "CaseWord", "_": "Underscore"}

# lines by the rule that they try; each is read alone, or behind what its clause needs
LINES = """
x
x.y(1)[2].z
f()
f(a)
f(a, b,)
f(a=1)
f(a, b=1, *c, d=2, **e)
f(a=1, 2)
f(**a, *b)
f(**a, b=1)
f(*a, b)
f(**a, b)
f(x for x in y)
f(x for x in y, 1)
f(1, x for x in y)
f(a=1 for x in y)
f(*a for x in y)
f(a := 1)
f(a := 1, b)
f(a=b := 1)
f((a))
f(,)
a + b - c * d / e // f % g @ h
a ** -b ** c
-a ** b
- - ~ + a
not not a
not a == b
a < b <= c != d == e > f >= g
a in b
a not in b
a is b
a is not b
a not b
a is in b
a and b or c and not d
a | b ^ c & d << e >> f
a if b else c
a if b else c if d else e
a if b
(a if b else c) if d else e
lambda: 1
lambda x: x
lambda x, y=1, *z, k, **w: x
lambda *, a: a
lambda *: a
lambda x, /, y: x
lambda /, x: x
lambda x=1, y: x
lambda x: yield
lambda x: (yield)
lambda x: int: x
lambda **k,: k
lambda *a, *b: a
await x
await x ** 2
await -x
-await x
()
(a)
(a,)
(a, b)
(*a)
(*a,)
(*a, b)
(a := 1)
a := 1
(a, b := 1)
(yield)
(yield a)
(yield from a)
(yield, a)
yield
yield a, b
yield from a
yield from a, b
yield *a
[]
[a]
[a, *b,]
[*a]
[,]
[a for a in b]
[a for a in b if c if d for e in f]
[*a for a in b]
[a for a, b in c]
[a for a, in c]
[a for *a in b]
[a for a.b in c]
[a for a in b, c]
[a for a in lambda: b]
[a for a in b if lambda: c]
[a async for a in b]
[a for f() in b]
{}
{a}
{a, *b}
{a: b}
{a: b, **c,}
{**a}
{a: b, c}
{a, b: c}
{*a, b: c}
{a: b for a in c}
{a for a in c}
{**a for a in c}
{a := 1}
{a: b := 1}
{a := 1: b}
a[b]
a[b, c]
a[b:c]
a[b:c:d]
a[:]
a[::]
a[::, b]
a[*b]
a[*b, c]
a[b := 1]
a[]
a[b:c:d:e]
a["b"](c)
"a" "b"
b"a" b"b"
"a" b"b"
f"a"
f"a{b}c"
f"{a!r:>{b}}"
f"{a, *b}"
f"{yield a}"
f"{a := 1}"
f"{(a := 1)}"
f"{a} {b}" "c"
f"{lambda x: 1}"
f"{(lambda x: 1)}"
...
None
True.x
1.real
a.b.c
a.1
a..b
a b
a.if
x = 1
x = y = 1
x = yield
x = yield = 1
x, y = 1
x, = 1
*x, y = 1
(x) = 1
(x, y) = 1
[x, y] = 1
[x, *y] = z
(*x) = 1
x.y = x[0] = 1
f() = 1
x + y = 1
1 = x
None = 1
x = *y, z
x = *y
"a" = x
(x, 1) = y
{x} = y
x = 1, 2
x = lambda: 1
x == 1 = y
x += 1
x.y -= 1
x[0] *= 1, 2
x /= yield
x, y += 1
(x) //= 1
(x, y) += 1
[x] += 1
x %= y = 1
x **= *y
x >>= *y, z
x <<= 1
x @= 1
x &= 1
x |= 1
x ^= 1
x: int
x: int = 1
x.y: int = 1
x[0]: int
(x): int = 1
x, y: int
(x, y): int = 1
x: int = yield
x: int = 1, 2
x: int = *y, z
x: a, b
f(): int
[x]: int
*x
*x, y
*x,
*x | y
*not x
pass
break
continue
pass x
return
return x
return x, *y
return *x
return yield
raise
raise x
raise x from y
raise from y
raise x, y
raise x from
global x
global x, y
global x,
global
nonlocal x
nonlocal x.y
del x
del x, y
del (x, y)
del (x), [y]
del x,
del x.y, x[0]
del f()
del *x
del (*x, y)
del
del x + y
assert x
assert x, y
assert x, y, z
assert x,
assert
import a
import a.b.c
import a as b
import a, b.c as d
import a.b as c.d
import a,
import (a)
import
from a import b
from a.b import c as d, e
from . import a
from .. import a
from ... import a
from .... import a
from .a.b import c
from ...a import c
from a import (b)
from a import (b, c as d,)
from a import ()
from a import b,
from a import *
from a import (*)
from import a
from a. import b
from a import b.c
x; y
x; y;
x;; y
; x
x = 1; import a
x; if y: z
if x:
if x: y
if x: y; z
if x := 1: y
if x, y: z
if x
if : y
if x: if y: z
elif x:
elif x: y
else:
else: x
else x:
while x:
while x: y
while (yield): y
for x in y:
for x, y in z: a
for x, in y: a
for *x, y in z: a
for (x) in y: a
for (x, y) in z: a
for x.y[0] in z: a
for x in y, *z: a
for x in *y, z: a
for f() in y: a
for x in y in z: a
for x: a
for x in: a
for x in y if z: a
for not x in y: a
try:
try: x
try x:
except:
except: x
except x:
except x as y: z
except (x, y) as z:
except x, y:
except x as y.z:
except as y:
except*:
except* x:
except* x as y:
finally:
finally: x
finally x:
with x:
with x as y:
with x as y, z as w:
with x, y:
with x as (y, z):
with x as y.z, w as v[0]: a
with x,:
with (x):
with (x, y):
with (x as y):
with (x as y,):
with (x as y, z):
with (x, y) as z:
with (x), y:
with (x as y), z:
with (x) as y, (z) as w:
with (x, y), z: a
with (yield): a
with (x := 1): a
with (x for x in y): a
with (x).y: a
with x as y + z: a
with x as f(): a
with x as [y, z]: a
with:
with x as y as z:
with (): a
with (*x, y): a
with (x as y) as z: a
def f():
def f(): pass
def f(x): pass
def f(x, y=1, *z, k, w=2, **v): pass
def f(x: int, y: int = 1, *z: int, k: int = 2, **v: int) -> int: pass
def f(*z: *int): pass
def f(x: *int): pass
def f(**z: *int): pass
def f(x, /, y): pass
def f(x, /): pass
def f(/, x): pass
def f(x, /, y, /): pass
def f(*, x): pass
def f(*): pass
def f(*, **k): pass
def f(*,): pass
def f(*x, *y): pass
def f(**k, x): pass
def f(**k,): pass
def f(*x,): pass
def f(x,): pass
def f(x, /,): pass
def f(,): pass
def f(x=1, y): pass
def f(x=1, /, y): pass
def f(x=1, *, y): pass
def f(x=1, *y, z): pass
def f(*x=1): pass
def f(**x=1): pass
def f(x) -> a, b: pass
def f(x) -> (a, b): pass
def f(x=(yield)): pass
def f(x=yield): pass
def f x: pass
def f(x) pass
def f((x)): pass
def f(1): pass
def (x): pass
def f: pass
class A:
class A: pass
class A(): pass
class A(B): pass
class A(B, metaclass=C, *D, **E): pass
class A(x for x in y): pass
class A(B=1, C): pass
class A.B: pass
class A(B) -> C: pass
class : pass
async def f(): pass
async for x in y: z
async with x as y: z
async with (x as y, z): a
async x
async if x: y
async class A: pass
async def f()
@x
@x.y(1)
@x[0]
@x := 1
@(yield)
@x, y
@
match x:
match x, y:
match x,:
match *x:
match *x, y:
match (x):
match (x, y):
match [x]:
match {x: y}:
match x := 1:
match x: y
match -x:
match x.y:
match(x)
match(x):
match[x]:
match[x] = 1
match.x
match
match = 1
match + 1
match, x
match: int
match: int = 1
match, x = 1
match -x
match * x
match *x, y
match not x:
match lambda: x:
match "a":
match 1:
match:
match x
match x if y else z:
match x for x in y:
print(match)
case
case = 1
case.x
case(x)
case + 1
case, x
case: int
case[x] = 1
case x:
case x: y
case x if y:
case x if y: z
case x if y := 1: z
case _:
case _ | x:
case 1:
case -1:
case +1:
case 1 + 2j:
case -1 - 2j:
case 1j:
case 1j + 2j:
case 1 + 2:
case 1 - 2j + 3j:
case "a" "b":
case b"a":
case f"a":
case None:
case True | False:
case ...:
case x.y.z:
case x.y():
case x():
case x(1, y, z=2):
case x(z=2, 1):
case x(z=2,):
case x(*y):
case x(y=z=1):
case (x):
case (x,):
case (x, y):
case (*x):
case (*x,):
case (*x, *y):
case ():
case []:
case [x, *y]:
case [*x, *_]:
case [x, [y, z]]:
case *x, y:
case *x:
case *x,:
case x, y:
case x,:
case x, *y, *z:
case {}:
case {1: x}:
case {1: x, **y}:
case {**y, 1: x}:
case {**y}:
case {**_}:
case {x: y}:
case {x.y: z}:
case {"a": 1, -1: 2, None: 3,}:
case {1 + 2j: x}:
case {1: x, **y,}:
case x as y:
case x | y as z:
case (x as y) | z:
case x as y | z:
case x as _:
case x as y.z:
case x as y as z:
case 1 as x:
case not x:
case x + y:
case x[0]:
case (x | y, z):
case x if:
case
case:
case match:
case case:
case _ as x:
case match():
case {match.x: case}:
"""

def symbols_of(line):
    out = []
    for token in tokenize.generate_tokens(io.StringIO(line + "\n").readline):
        text = token.string
        if token.type in (tokenize.NEWLINE, tokenize.NL, tokenize.ENDMARKER, tokenize.INDENT, tokenize.DEDENT, tokenize.COMMENT):
            continue
        if token.type == tokenize.NAME:
            if keyword.iskeyword(text):
                out.append(text.capitalize() + "Word")
            else:
                out.append(SOFT.get(text, "Name"))
        elif token.type == tokenize.NUMBER:
            out.append("Imaginary" if text[-1] in "jJ" else "Number")
        elif token.type == tokenize.STRING:
            prefix = re.match(r"[a-zA-Z]*", text).group().lower()
            if "f" in prefix:
                out += format_symbols(text)
            else:
                out.append("Bytes" if "b" in prefix else "Str")
        else:
            out.append(OPERATORS[text])
    return out


def format_symbols(text):
    """Fields of an f-string of these rows: one level of formats, no quotes within."""
    inside = text[2:-1]
    out = ["FStr"]
    fields, _ = fields_of(inside, 0, False)
    return out + fields + ["FStrEnd"]


def fields_of(text, place, in_format):
    out = []
    while place < len(text):
        if text[place] == "}" and in_format:
            return out, place
        if text[place] != "{":
            place += 1
            continue
        start = place + 1
        depth = 0
        place = start
        while depth or text[place] not in "}:!":
            depth += (text[place] in "([{") - (text[place] in ")]}")
            place += 1
        expression = text[start:place]
        out += ["FieldOpen"] + symbols_of(expression.strip())
        if text[place] == "!":
            place += 2
        if text[place] == ":":
            inner, place = fields_of(text, place + 1, True)
            out += inner
        out.append("FieldClose")
        place += 1
    return out, place


def parses(source):
    try:
        ast.parse(source)
        return True
    except (SyntaxError, ValueError):
        return False


PREFIXES = {
    "Elif": "if a:\n    pass\n", "Else": "if a:\n    pass\n", "Except": "try:\n    pass\n", "ExceptStar": "try:\n    pass\n",
    "Finally": "try:\n    pass\n",
}


def head_of(line):
    first = line.split()[0] if line.split() else ""
    word = re.match(r"[a-z]*", first).group() if first and first[0].isalpha() else first[:1]
    if word == "async":
        second = line.split()[1] if len(line.split()) > 1 else ""
        return {"def": "AsyncFunctionDef", "for": "AsyncFor", "with": "AsyncWith"}.get(second, "Simple")
    if word == "except":
        return "ExceptStar" if line[6:].lstrip().startswith("*") else "Except"
    return {
        "if": "If", "elif": "Elif", "else": "Else", "while": "While", "for": "For", "try": "Try", "finally": "Finally",
        "with": "With", "def": "FunctionDef", "class": "ClassDef", "@": "Decorator",
    }.get(word, "Simple")


def accepted(line, head):
    """The kind that Python gives the line, or None."""
    if line.startswith("match") and line.rstrip().endswith(":"):
        if parses(line + "\n    case _:\n        pass\n"):
            return "Match"
    if line.startswith("case"):
        for body in ("\n        pass\n", "\n"):
            if parses("match a:\n    " + line + body):
                return "Case"
    if head == "Simple":
        return "Simple" if parses("async def f():\n    " + line + "\n") or parses(line + "\n") else None
    if head == "Decorator":
        return "Decorator" if parses(line + "\ndef f(): pass\n") else None
    tail = "\n    pass\n" if line.rstrip().endswith(":") else "\n"
    if head == "Try":
        tail += "finally:\n    pass\n"
    before = PREFIXES.get(head, "")
    source = before + line + tail
    inside = "async def f():\n" + "".join("    " + part + "\n" for part in source.rstrip("\n").split("\n"))
    return head if parses(source) or parses(inside) else None


# where the definition differs from `ast.parse`
DIFFERS = {
    'f"{*a}"': "Simple",  # a field holds what an expression statement holds
    'case f"a":': None,  # refused by Python behind its parser
    "case (*x, *y):": None,  # refused by Python behind its parser
    "case x, *y, *z:": None,  # refused by Python behind its parser
    "case [*x, *_]:": None,  # refused by Python behind its parser
}


def rows():
    for line in LINES.strip("\n").split("\n"):
        yield line, symbols_of(line), DIFFERS.get(line, accepted(line, head_of(line)))


def term(symbols):
    parts = []
    for symbol in symbols:
        parts.append("j" if symbol == "Imaginary" else f"t s.{symbol}")
    return " ∷ ".join(parts + ["[]"])


HEADER = """-- Lines with the kind that Python's own parser gives them, computed from the readers of the definition: rows that
-- tools/grammar_rows.py writes.
use Rattle.std.specs.Prelude.{List, [], ◌∷◌, Option, Some, None, map}
use Rattle.std.proofs.Common.{◌≡◌, refl}
use Rattle.py_grammar.specs.declared.head.Head.{Head}
use Rattle.py_grammar.specs.declared.head.Head.TheVariants as heads
use Rattle.py_grammar.specs.declared.symbol.Symbol.TheVariants as s
use Rattle.py_grammar.proofs.Trying.{Row, t, j, kind_of_line, said}
%(uses)s
"""


def names_of_readers():
    """The definitions that a row unfolds, by their files."""
    folder = os.path.join(os.path.dirname(__file__), "..", "crates", "py_grammar", "specs")
    out = {}
    for name in ["Reading", "ReadingPatterns", "ReadingStatements", "ReadingHeaders", "ReadingLines"]:
        with open(os.path.join(folder, name + ".antt"), encoding="utf-8") as text:
            out[name] = re.findall(r"unfoldable pub (\w+) :", text.read())
    return out


def main():
    table = list(rows())
    size = 80
    folder = os.path.join(os.path.dirname(__file__), "..", "crates", "py_grammar", "proofs")
    readers = names_of_readers()
    uses = "".join(f"use Rattle.py_grammar.specs.{name}.{{{', '.join(all_)}}}\n" for name, all_ in readers.items())
    unfolded = " ".join(name for all_ in readers.values() for name in all_)
    names = []
    for first in range(0, len(table), size):
        name = f"Rows{first // size + 1}"
        names.append(name)
        with open(os.path.join(folder, name + ".antt"), "w", encoding="utf-8") as out:
            out.write(HEADER % {"uses": uses})
            out.write("abbrev rows : List Row\nrows =\n")
            for line, symbols, head in table[first:first + size]:
                answer = "None" if head is None else f"Some heads.{head}"
                out.write(f"    -- {line}\n    record {{ line = {term(symbols)}; kind = {answer} }} ∷\n")
            out.write("    []\n\n")
            out.write("-- each line has the kind that is said\n")
            out.write(f"rows_hold : map kind_of_line rows ≡ map said rows\nunfolding {unfolded}\nrows_hold = refl\n")
    print(len(table), "rows in", names)


if __name__ == "__main__":
    main()
