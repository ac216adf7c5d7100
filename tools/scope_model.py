"""The definitions of the crate scope_rules as functions of Python, and the definitions with one word changed.

The `.antt` files are read and translated definition by definition, so that what is changed here is what stands there.
Lists are tuples; a tree is what `scope_trees` makes, given here as the rows of its nodes in preorder.
Used by scope_choice.py.
"""
import os
import re

ROOT = os.path.dirname(os.path.dirname(os.path.abspath(__file__)))
SPECS = os.path.join(ROOT, "crates/scope_rules/specs")
FILES = ("Nodes", "Kinds", "Places", "Mangling", "Binding", "Marks", "Declaring", "Reading", "Answers")
TOKEN = re.compile(r"\s*(::=|→|λ|∷|\+\+|&&|\|\||==|≡|<|[-+.(){}=;:,]|\[\]|[A-Za-z_][A-Za-z_0-9]*(?:\.[A-Za-z_0-9]+)*|\d+)")
LEVELS = [("||",), ("&&",), ("==",), ("∷", "++"), ("+", "-")]
RIGHT = ("∷", "++")
CONSTRUCTORS = ("Local", "Free", "Within", "Beside", "Global", "Builtin", "Nowhere", "None", "Some")


class Node:
    """A node of a tree: its kind, name, kids and parent."""

    def __init__(self, kind, name, kids, parent):
        self.kind, self.name, self.kids, self.parent = kind, name, kids, parent
        self.node = self


class Tree:
    """The rows of a tree of `scope_trees`."""

    def __init__(self, tree):
        self.nodes, self.kept = [], {}
        self.add(tree, None)
        self.root = Node(self.nodes[0].kind, self.nodes[0].name, (), None)

    def add(self, tree, parent):
        number = len(self.nodes)
        name = "None" if tree[1] is None else ("Some", tuple(tree[1].encode()))
        self.nodes.append(Node(tree[0], name, (), parent))
        self.nodes[number].kids = tuple(self.add(kid, number) for kid in tree[2])
        return number

    def at(self, n):
        return self.nodes[n] if n < len(self.nodes) else self.root


class Mark:
    """A name in a scope."""

    def __init__(self, scope, name):
        self.scope, self.name = scope, name

    def __repr__(self):
        return f"{self.scope}:{bytes(self.name).decode()}"


def find(test, items):
    return next((("Some", x) for x in items if test(x)), "None")


GIVEN = {
    "node_at": (2, lambda t, n: t.at(n)),
    "kids_at": (2, lambda t, n: t.at(n).kids),
    "parent_at": (2, lambda t, n: "None" if t.at(n).parent is None else ("Some", t.at(n).parent)),
    "count_of": (1, lambda t: len(t.nodes)),
    "length": (1, len),
    "drop": (2, lambda n, xs: xs[n:]),
    "reverse": (1, lambda xs: xs[::-1]),
    "not": (1, lambda x: not x),
    "nat_le": (2, lambda m, n: m <= n),
    "bytes_eq": (2, lambda x, y: x == y),
    "filter": (2, lambda test, xs: tuple(x for x in xs if test(x))),
    "list_any": (2, lambda test, xs: any(test(x) for x in xs)),
    "list_all": (2, lambda test, xs: all(test(x) for x in xs)),
    "find": (2, find),
    "option_map": (2, lambda f, x: x if x == "None" else ("Some", f(x[1]))),
    "unwrap_or": (2, lambda x, other: other if x == "None" else x[1]),
}


# ---- reading a definition


class Reader:
    """Reads an expression, as nested tuples."""

    def __init__(self, text):
        self.words, place = [], 0
        text = text.strip()
        while place < len(text):
            found = TOKEN.match(text, place)
            assert found, text[place:]
            self.words.append(found.group(1))
            place = found.end()
        self.place = 0

    def now(self):
        return self.words[self.place] if self.place < len(self.words) else None

    def take(self, word=None):
        found = self.now()
        assert word in (None, found), (word, self.words[self.place:])
        self.place += 1
        return found

    def expression(self, level=0):
        if self.now() == "if":
            self.take()
            parts = [self.expression()]
            for word in ("then", "else"):
                self.take(word)
                parts.append(self.expression())
            return ("if", *parts)
        if self.now() == "λ":
            self.take()
            name = self.take().rstrip(".")
            if self.now() == ".":
                self.take()
            return ("λ", name, self.expression())
        if level == len(LEVELS):
            return self.applied()
        left = self.expression(level + 1)
        while self.now() in LEVELS[level]:
            sign = self.take()
            left = ("sign", sign, left, self.expression(level if sign in RIGHT else level + 1))
        return left

    def applied(self):
        parts = [self.part()]
        while self.now() and (re.match(r"\w|\(|\[\]", self.now()) and self.now() not in ("then", "else")):
            parts.append(self.part())
        return parts[0] if len(parts) == 1 else ("call", *parts)

    def part(self):
        word = self.take()
        if word == "(":
            inner = self.expression()
            self.take(")")
            while self.now() == ".":
                self.take()
                inner = ("field", inner, self.take())
            return inner
        if word == "record":
            return self.record()
        if word == "[]":
            return ("list",)
        if word.isdigit():
            return ("number", int(word))
        head, *fields = word.split(".")
        if head == "kinds":
            return ("kind", fields[0])
        inner = ("name", head)
        for field in fields:
            inner = ("field", inner, field)
        return inner

    def record(self):
        self.take("{")
        fields = {}
        while self.now() != "}":
            key = self.take()
            self.take("=")
            fields[key] = self.expression()
            if self.now() == ";":
                self.take()
        self.take("}")
        return ("record", fields)


def clauses(text):
    """The clauses of a file's functions, in order: (name, patterns, body, line)."""
    for number, line in enumerate(text.split("\n")):
        if re.match(r"[a-z_]\w* .*= ", line) and " : " not in line.split(" = ")[0] and not line.startswith(("use ", "--", "pub ")):
            left, right = line.split(" = ", 1)
            name = left.split()[0]
            left = left[len(name):]
            if name == "Name" or right.startswith("List "):
                continue
            reader = Reader(left)
            patterns = []
            while reader.now():
                patterns.append(reader.part())
            yield name, patterns, Reader(right).expression(), number


# ---- giving it as Python


class Writer:
    """Writes the functions of all files as Python."""

    def __init__(self, functions):
        self.arity = {name: len(rows[0][0]) for name, rows in functions.items()}
        self.arity.update({name: arity for name, (arity, _) in GIVEN.items()})

    def function(self, name, rows):
        arity = self.arity[name]
        names = [f"a{i}" for i in range(arity)]
        out = [f"def {name}({', '.join(names)}):"]
        for patterns, body in rows:
            tests, bound = [], []
            for place, pattern in zip(names, patterns):
                self.pattern(pattern, place, tests, bound)
            lines = [f"{word} = {place}" for word, place in bound] + [f"return {self.write(body, {w for w, _ in bound})}"]
            out.append(f"    if {' and '.join(tests) or 'True'}:")
            out += ["        " + line for line in lines]
        return "\n".join(out + [f"    raise ValueError('{name}')"]) + "\n"

    def pattern(self, p, place, tests, bound):
        if p[0] == "kind":
            tests.append(f"{place} == '{p[1]}'")
        elif p[0] == "list":
            tests.append(f"{place} == ()")
        elif p[0] == "sign" and p[1] == "∷":
            tests.append(f"len({place}) > 0")
            self.pattern(p[2], f"{place}[0]", tests, bound)
            self.pattern(p[3], f"{place}[1:]", tests, bound)
        elif p[0] == "call" and p[1][1] == "suc":
            tests.append(f"{place} > 0")
            self.pattern(p[2], f"({place} - 1)", tests, bound)
        elif p[0] == "call":
            tests.append(f"{place}[0] == '{p[1][1]}'")
            self.pattern(p[2], f"{place}[1]", tests, bound)
        elif p[1] in CONSTRUCTORS:
            tests.append(f"{place} == '{p[1]}'")
        elif p[1] == "zero":
            tests.append(f"{place} == 0")
        else:
            bound.append((p[1], place))

    def write(self, e, bound):
        kind = e[0]
        if kind == "if":
            return f"({self.write(e[2], bound)} if {self.write(e[1], bound)} else {self.write(e[3], bound)})"
        if kind == "λ":
            return f"(lambda {e[1]}: {self.write(e[2], bound | {e[1]})})"
        if kind == "sign":
            left, right = self.write(e[2], bound), self.write(e[3], bound)
            if e[1] == "∷":
                return f"(({left},) + {right})"
            if e[1] == "-":
                return f"max(0, {left} - {right})"
            return f"({left} {({'&&': 'and', '||': 'or', '++': '+'}).get(e[1], e[1])} {right})"
        if kind == "number":
            return str(e[1])
        if kind == "list":
            return "()"
        if kind == "kind":
            return f"'{e[1]}'"
        if kind == "record":
            return f"Mark({', '.join(self.write(e[1][k], bound) for k in ('scope', 'name'))})" if "scope" in e[1] else self.write(e[1]["0"], bound)
        if kind == "field":
            return self.field(self.write(e[1], bound), e[2])
        if kind == "name":
            return self.call(e[1], [], bound)
        if e[1][0] == "name":
            return self.call(e[1][1], [self.write(a, bound) for a in e[2:]], bound)
        raise ValueError(e)

    def field(self, inner, word):
        return inner if word in ("now", "0") else f"{inner}.{word}"

    def call(self, name, args, bound):
        if name in bound:
            return name + "".join(f"({a})" for a in args)
        if name in CONSTRUCTORS:
            return f"('{name}', {args[0]})" if args else f"'{name}'"
        if name in ("true", "false", "BUILTIN_NAMES"):
            return {"true": "True", "false": "False"}.get(name, name)
        if name == "suc":
            return f"({args[0]} + 1)"
        missing = self.arity[name] - len(args)
        more = [f"x{i}" for i in range(missing)]
        return "(" + "".join(f"lambda {x}: " for x in more) + f"{name}({', '.join(args + more)}))"


def builtin_names():
    text = open(os.path.join(ROOT, "crates/scope_rules/src/builtin_names.rt")).read()
    return tuple(tuple(name.encode()) for name in re.findall(r'^    "(\w+)",$', text, re.M))


def texts():
    return {name: open(os.path.join(SPECS, name + ".antt")).read() for name in FILES}


def remembered(function, arity):
    """The function, which keeps its answers: a tree's are kept with the tree."""
    if arity < 2:
        return function

    def answer(t, *rest):
        if not isinstance(t, Tree):
            return function(t, *rest)
        key = (function, rest)
        if key not in t.kept:
            t.kept[key] = function(t, *rest)
        return t.kept[key]

    return answer


def model(files):
    """The functions of these texts."""
    functions = {}
    for name in FILES:
        for function, patterns, body, _ in clauses(files[name]):
            functions.setdefault(function, []).append((patterns, body))
    writer = Writer(functions)
    space = {name: function for name, (_, function) in GIVEN.items()}
    space.update(Mark=Mark, BUILTIN_NAMES=builtin_names())
    for name, rows in functions.items():
        exec(writer.function(name, rows), space)
        space[name] = remembered(space[name], writer.arity[name])
    return space
