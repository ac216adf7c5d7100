"""Python source as the trees of `tree_nodes`, and what `symtable` says of its names.

Used by scope_rows.py. A tree is [kind, name or None, kids]; nodes are numbered in preorder.
"""
import ast
import symtable

BINARY = {
    ast.Add: ("Sum", "Add"), ast.Sub: ("Sum", "Subtract"), ast.Mult: ("Product", "Multiply"),
    ast.Div: ("Product", "Divide"), ast.Mod: ("Product", "Modulo"), ast.FloorDiv: ("Product", "FloorDivide"),
}
COMPARED = {ast.Lt: "Less", ast.Gt: "Greater", ast.Eq: "Equal", ast.In: "In", ast.Is: "Is", ast.NotEq: "NotEqual"}
COMPREHENSIONS = {
    ast.ListComp: "ListComprehension", ast.SetComp: "SetComprehension",
    ast.DictComp: "DictComprehension", ast.GeneratorExp: "GeneratorExpression",
}


class Trees:
    """Makes the tree of a module, and keeps which `ast` node each tree node came from."""

    def __init__(self):
        self.origin = {}

    def make(self, origin, kind, name=None, kids=()):
        tree = [kind, name, list(kids)]
        self.origin[id(tree)] = origin
        return tree

    def body(self, statements):
        return [self.statement(s) for s in statements]

    def documented(self, statements):
        first = statements[0] if statements else None
        if isinstance(first, ast.Expr) and isinstance(first.value, ast.Constant) and isinstance(first.value.value, str):
            return [self.make(first, "Docstring", repr(first.value.value))] + self.body(statements[1:])
        return self.body(statements)

    def module(self, node):
        return self.make(node, "Module", None, self.documented(node.body))

    def optional(self, node):
        return [] if node is None else [self.expression(node)]

    def annotation(self, node):
        return [] if node is None else [self.make(node, "Annotation", None, [self.expression(node)])]

    def parameter(self, kind, arg, default):
        return self.make(arg, kind, arg.arg, self.annotation(arg.annotation) + self.optional(default))

    def parameters(self, args):
        out = []
        plain = args.posonlyargs + args.args
        defaults = [None] * (len(plain) - len(args.defaults)) + args.defaults
        for place, (arg, default) in enumerate(zip(plain, defaults)):
            out.append(self.parameter("Parameter", arg, default))
            if args.posonlyargs and place + 1 == len(args.posonlyargs):
                out.append(self.make(args, "PositionalOnlyMark"))
        if args.vararg:
            out.append(self.parameter("StarParameter", args.vararg, None))
        elif args.kwonlyargs:
            out.append(self.make(args, "KeywordOnlyMark"))
        for arg, default in zip(args.kwonlyargs, args.kw_defaults):
            out.append(self.parameter("KeywordOnlyParameter", arg, default))
        if args.kwarg:
            out.append(self.parameter("DoubleStarParameter", args.kwarg, None))
        return out

    def arguments(self, args, keywords):
        out = []
        for arg in args:
            if isinstance(arg, ast.Starred):
                out.append(self.make(arg, "StarArgument", None, [self.expression(arg.value)]))
            else:
                out.append(self.expression(arg))
        for keyword in keywords:
            if keyword.arg is None:
                out.append(self.make(keyword, "DoubleStarArgument", None, [self.expression(keyword.value)]))
            else:
                out.append(self.make(keyword, "KeywordArgument", keyword.arg, [self.expression(keyword.value)]))
        return out

    def decorators(self, node):
        return [self.make(d, "Decorator", None, [self.expression(d)]) for d in node.decorator_list]

    def alias(self, node):
        kids = [self.make(node, "AsName", node.asname)] if node.asname else []
        return self.make(node, "Alias", node.name, kids)

    def clause(self, kind, statements):
        return [self.make(statements[0], kind, None, self.body(statements))] if statements else []

    def statement(self, n):
        make, one = self.make, self.expression
        if isinstance(n, ast.Expr):
            return make(n, "ExpressionStatement", None, [one(n.value)])
        if isinstance(n, ast.Assign):
            return make(n, "Assign", None, [one(t) for t in n.targets] + [one(n.value)])
        if isinstance(n, ast.AugAssign):
            return make(n, "AugAssign", None, [one(n.target), make(n, BINARY[type(n.op)][1]), one(n.value)])
        if isinstance(n, ast.AnnAssign):
            return make(n, "AnnAssign", None, [one(n.target)] + self.annotation(n.annotation) + self.optional(n.value))
        if isinstance(n, (ast.Pass, ast.Break, ast.Continue)):
            return make(n, type(n).__name__)
        if isinstance(n, ast.Return):
            return make(n, "Return", None, self.optional(n.value))
        if isinstance(n, ast.Raise):
            return make(n, "Raise", None, self.optional(n.exc) + self.optional(n.cause))
        if isinstance(n, (ast.Global, ast.Nonlocal)):
            return make(n, type(n).__name__, None, [make(n, "DeclaredName", name) for name in n.names])
        if isinstance(n, ast.Delete):
            return make(n, "Delete", None, [one(t) for t in n.targets])
        if isinstance(n, ast.Assert):
            return make(n, "Assert", None, [one(n.test)] + self.optional(n.msg))
        if isinstance(n, ast.Import):
            return make(n, "Import", None, [self.alias(a) for a in n.names])
        if isinstance(n, ast.ImportFrom):
            source = "." * n.level + (n.module or "")
            if n.names[0].name == "*":
                return make(n, "ImportFrom", source, [make(n, "ImportWildcard")])
            return make(n, "ImportFrom", source, [self.alias(a) for a in n.names])
        if isinstance(n, (ast.If, ast.While)):
            return make(n, type(n).__name__, None, [one(n.test)] + self.body(n.body) + self.clause("Else", n.orelse))
        if isinstance(n, (ast.For, ast.AsyncFor)):
            return make(n, type(n).__name__, None, [one(n.target), one(n.iter)] + self.body(n.body) + self.clause("Else", n.orelse))
        if isinstance(n, (ast.With, ast.AsyncWith)):
            items = [make(i, "WithItem", None, [one(i.context_expr)] + self.optional(i.optional_vars)) for i in n.items]
            return make(n, type(n).__name__, None, items + self.body(n.body))
        if isinstance(n, (ast.Try, ast.TryStar)):
            kind = "ExceptStarHandler" if isinstance(n, ast.TryStar) else "ExceptHandler"
            handlers = []
            for h in n.handlers:
                name = [make(h, "AsName", h.name)] if h.name else []
                handlers.append(make(h, kind, None, self.optional(h.type) + name + self.body(h.body)))
            return make(n, "Try", None, self.body(n.body) + handlers + self.clause("Else", n.orelse) + self.clause("Finally", n.finalbody))
        if isinstance(n, (ast.FunctionDef, ast.AsyncFunctionDef)):
            kids = self.decorators(n) + self.parameters(n.args) + self.annotation(n.returns) + self.documented(n.body)
            return make(n, type(n).__name__, n.name, kids)
        if isinstance(n, ast.ClassDef):
            return make(n, "ClassDef", n.name, self.decorators(n) + self.arguments(n.bases, n.keywords) + self.documented(n.body))
        if isinstance(n, ast.Match):
            cases = [make(c, "Case", None, [self.pattern(c.pattern)] + self.optional(c.guard) + self.body(c.body)) for c in n.cases]
            return make(n, "Match", None, [one(n.subject)] + cases)
        raise ValueError(ast.dump(n))

    def pattern(self, p):
        make = self.make
        if isinstance(p, (ast.MatchValue, ast.MatchSingleton)):
            value = self.expression(p.value) if isinstance(p, ast.MatchValue) else make(p, "NoneLiteral")
            return make(p, "MatchValue", None, [value])
        if isinstance(p, ast.MatchAs):
            if p.name is None:
                return make(p, "MatchWildcard")
            return make(p, "MatchAs", p.name, [self.pattern(p.pattern)]) if p.pattern else make(p, "MatchCapture", p.name)
        if isinstance(p, ast.MatchStar):
            return make(p, "MatchStar", p.name) if p.name else make(p, "MatchStarWildcard")
        if isinstance(p, ast.MatchSequence):
            return make(p, "MatchSequence", None, [self.pattern(q) for q in p.patterns])
        if isinstance(p, ast.MatchOr):
            return make(p, "MatchOr", None, [self.pattern(q) for q in p.patterns])
        if isinstance(p, ast.MatchMapping):
            items = [make(p, "MatchItem", None, [self.expression(k), self.pattern(v)]) for k, v in zip(p.keys, p.patterns)]
            return make(p, "MatchMapping", None, items + ([make(p, "MatchRest", p.rest)] if p.rest else []))
        if isinstance(p, ast.MatchClass):
            words = [make(p, "MatchKeyword", k, [self.pattern(v)]) for k, v in zip(p.kwd_attrs, p.kwd_patterns)]
            return make(p, "MatchClass", None, [self.expression(p.cls)] + [self.pattern(q) for q in p.patterns] + words)
        raise ValueError(ast.dump(p))

    def row(self, n, kind, operands):
        return self.make(n, kind, None, [self.expression(o) for o in operands])

    def expression(self, n):
        make, one = self.make, self.expression
        is_target = not isinstance(getattr(n, "ctx", ast.Load()), ast.Load)
        if isinstance(n, ast.Name):
            return make(n, "NameTarget" if is_target else "Name", n.id)
        if isinstance(n, ast.Attribute):
            return make(n, "AttributeTarget" if is_target else "Attribute", n.attr, [one(n.value)])
        if isinstance(n, ast.Subscript):
            return make(n, "SubscriptTarget" if is_target else "Subscript", None, [one(n.value), one(n.slice)])
        if isinstance(n, ast.Starred):
            return make(n, "StarredTarget" if is_target else "Starred", None, [one(n.value)])
        if isinstance(n, (ast.Tuple, ast.List)):
            return self.row(n, type(n).__name__ + ("Target" if is_target else ""), n.elts)
        if isinstance(n, ast.Set):
            return self.row(n, "Set", n.elts)
        if isinstance(n, ast.Constant):
            v = n.value
            if v is None or v is True or v is False:
                return make(n, repr(v) + "Literal")
            if v is ...:
                return make(n, "EllipsisLiteral")
            kind = "StringLiteral" if isinstance(v, str) else "BytesLiteral" if isinstance(v, bytes) else "NumberLiteral"
            return make(n, kind, repr(v))
        if isinstance(n, ast.BinOp):
            kind, sign = BINARY[type(n.op)]
            return make(n, kind, None, [one(n.left), make(n, sign), one(n.right)])
        if isinstance(n, ast.BoolOp):
            return self.row(n, "BoolOr" if isinstance(n.op, ast.Or) else "BoolAnd", n.values)
        if isinstance(n, ast.UnaryOp):
            kinds = {ast.Not: "Not", ast.USub: "UnaryMinus", ast.UAdd: "UnaryPlus", ast.Invert: "UnaryInvert"}
            return self.row(n, kinds[type(n.op)], [n.operand])
        if isinstance(n, ast.Compare):
            kids = [one(n.left)]
            for op, operand in zip(n.ops, n.comparators):
                kids += [make(n, COMPARED[type(op)]), one(operand)]
            return make(n, "Comparison", None, kids)
        if isinstance(n, ast.IfExp):
            return self.row(n, "Conditional", [n.body, n.test, n.orelse])
        if isinstance(n, ast.Lambda):
            return make(n, "Lambda", None, self.parameters(n.args) + [one(n.body)])
        if isinstance(n, ast.NamedExpr):
            return make(n, "NamedExpression", n.target.id, [one(n.value)])
        if isinstance(n, (ast.Await, ast.Yield, ast.YieldFrom)):
            return make(n, type(n).__name__, None, self.optional(n.value))
        if isinstance(n, ast.Call):
            return make(n, "Call", None, [one(n.func)] + self.arguments(n.args, n.keywords))
        if isinstance(n, ast.Dict):
            return make(n, "Dict", None, [make(n, "DictItem", None, [one(k), one(v)]) for k, v in zip(n.keys, n.values)])
        if isinstance(n, ast.JoinedStr):
            return make(n, "FString", "f''", [one(v) for v in n.values if isinstance(v, ast.FormattedValue)])
        if isinstance(n, ast.FormattedValue):
            inner = n.format_spec.values if n.format_spec else []
            return make(n, "Field", None, [one(n.value)] + [one(v) for v in inner if isinstance(v, ast.FormattedValue)])
        if type(n) in COMPREHENSIONS:
            first = make(n, "DictItem", None, [one(n.key), one(n.value)]) if isinstance(n, ast.DictComp) else one(n.elt)
            clauses = []
            for g in n.generators:
                kind = "AsyncComprehensionFor" if g.is_async else "ComprehensionFor"
                clauses.append(make(g, kind, None, [one(g.target), one(g.iter)] + [one(i) for i in g.ifs]))
            return make(n, COMPREHENSIONS[type(n)], None, [first] + clauses)
        raise ValueError(ast.dump(n))


def preorder(tree):
    yield tree
    for kid in tree[2]:
        yield from preorder(kid)


class Tables:
    """Which table of `symtable` belongs to each scope of the `ast`, and in which one each name is read."""

    def __init__(self, source):
        self.tree = ast.parse(source)
        self.top = symtable.symtable(source, "t.py", "exec")
        self.table_of, self.read_in, self.opener, self.stands = {}, {}, {}, {}
        self.waiting = {}
        self.enter(self.tree, self.top, None, self.tree.body)

    def enter(self, node, table, private, inside):
        self.table_of[id(node)] = table
        self.opener[table.get_id()] = node
        self.waiting[table.get_id()] = list(table.get_children())
        for part in inside:
            self.visit(part, table, private)

    def take(self, table, name, lineno):
        waiting = self.waiting[table.get_id()]
        for place, child in enumerate(waiting):
            if child.get_name() == name and child.get_lineno() == lineno:
                return waiting.pop(place)
        raise ValueError((name, lineno, waiting))

    def visit_all(self, parts, table, private):
        for part in parts:
            if part is not None:
                self.visit(part, table, private)

    def outside(self, args, table, private):
        every = args.posonlyargs + args.args + [a for a in (args.vararg, args.kwarg) if a] + args.kwonlyargs
        self.visit_all(args.defaults + args.kw_defaults + [a.annotation for a in every], table, private)

    def visit(self, n, table, private):
        self.stands[id(n)] = table
        if isinstance(n, (ast.FunctionDef, ast.AsyncFunctionDef)):
            self.outside(n.args, table, private)
            self.visit_all([n.returns] + n.decorator_list, table, private)
            self.enter(n, self.take(table, n.name, n.lineno), private, n.body)
        elif isinstance(n, ast.Lambda):
            self.outside(n.args, table, private)
            self.enter(n, self.take(table, "lambda", n.lineno), private, [n.body])
        elif isinstance(n, ast.ClassDef):
            self.visit_all(n.bases + [k.value for k in n.keywords] + n.decorator_list, table, private)
            self.enter(n, self.take(table, n.name, n.lineno), n.name, n.body)
        elif type(n) in COMPREHENSIONS:
            name = {ast.ListComp: "listcomp", ast.SetComp: "setcomp", ast.DictComp: "dictcomp", ast.GeneratorExp: "genexpr"}[type(n)]
            self.visit(n.generators[0].iter, table, private)
            parts = []
            for place, g in enumerate(n.generators):
                parts += [g.target] + ([g.iter] if place else []) + g.ifs
            parts += [n.value, n.key] if isinstance(n, ast.DictComp) else [n.elt]
            self.enter(n, self.take(table, name, n.lineno), private, parts)
        else:
            if isinstance(n, ast.Name) and isinstance(n.ctx, ast.Load):
                self.read_in[id(n)] = (table, mangled(private, n.id))
            self.visit_all(ast.iter_child_nodes(n), table, private)


def mangled(private, name):
    stripped = (private or "").lstrip("_")
    if not stripped or not name.startswith("__") or name.endswith("__"):
        return name
    return "_" + stripped + name


def symbol(table, name):
    try:
        return table.lookup(name)
    except KeyError:
        return None


def every_table(table):
    yield table
    for child in table.get_children():
        yield from every_table(child)


def is_comprehension(table):
    return table.get_type() == "function" and table.get_name() in ("listcomp", "setcomp", "dictcomp", "genexpr")


def parents(top):
    out = {}
    for table in every_table(top):
        for child in table.get_children():
            out[child.get_id()] = table
    return out


class Answers:
    """Where each name that is read leads, and the names that are local to each scope, by `symtable`."""

    def __init__(self, source, builtins):
        self.tables = Tables(source)
        self.builtins = builtins
        self.parent = parents(self.tables.top)
        made = Trees()
        self.tree = made.module(self.tables.tree)
        self.nodes = list(preorder(self.tree))
        self.origin = [made.origin[id(node)] for node in self.nodes]
        self.number = {}
        for number, (node, origin) in enumerate(zip(self.nodes, self.origin)):
            if id(origin) in self.tables.table_of and node[0] not in ("Annotation", "Decorator", "Docstring"):
                self.number.setdefault(self.tables.table_of[id(origin)].get_id(), number)

    def in_module(self, name):
        found = symbol(self.tables.top, name)
        if found and (found.is_assigned() or found.is_imported() or found.is_annotated() or found.is_namespace()):
            return True
        for table in every_table(self.tables.top):
            found = symbol(table, name)
            if found and found.is_declared_global() and (found.is_assigned() or found.is_imported()):
                return True
        return False

    def at_module(self, name):
        if self.in_module(name):
            return "Global"
        special = len(name) >= 5 and name.startswith("__") and name.endswith("__")
        return "Builtin" if name in self.builtins or special else "Nowhere"

    def answer(self, table, name):
        found = symbol(table, name)
        if table.get_type() == "module" or found.is_declared_global():
            return self.at_module(name)
        if found.is_local():
            return "Local %d" % self.number[table.get_id()]
        if found.is_free():
            near, now = is_comprehension(table), self.parent[table.get_id()]
            # `__class__` in a method is a cell of the class without a table that has it
            while now is not None:
                there = symbol(now, name)
                if now.get_type() != "class" and there and there.is_local():
                    return "%s %d" % ("Local" if near else "Free", self.number[now.get_id()])
                near, now = near and is_comprehension(now), self.parent.get(now.get_id())
        return self.at_module(name)

    def reads(self):
        out = []
        for number, (node, origin) in enumerate(zip(self.nodes, self.origin)):
            if node[0] == "Name":
                out.append((number, self.answer(*self.tables.read_in[id(origin)])))
        return out

    def names(self):
        out = []
        for table in every_table(self.tables.top):
            number = self.number[table.get_id()]
            if table.get_type() == "module":
                every = {s.get_name() for t in every_table(self.tables.top) for s in t.get_symbols()}
                names = [n for n in every if self.in_module(n)]
            else:
                names = [s.get_name() for s in table.get_symbols() if s.is_local() and s.get_name() != ".0" and (s.is_assigned() or s.is_parameter() or s.is_imported() or s.is_annotated() or s.is_namespace())]
            out.append((number, sorted(names)))
        return sorted(out)
