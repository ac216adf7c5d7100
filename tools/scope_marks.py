"""What Python says of each node of a small program: its name as it is read, where it binds, what it stores and deletes.

Expected values come from `symtable` (which names a scope has, in which form, and where they lead), from `ast` (what is
stored, deleted, declared and imported) and, for the names of attributes, from the instructions that Python's compiler makes.
Used by scope_choice.py.
"""
import ast
import dis
import types

import scope_trees

ATTRIBUTES = ("LOAD_ATTR", "LOAD_METHOD", "STORE_ATTR", "DELETE_ATTR")
PARAMETERS = ("Parameter", "StarParameter", "KeywordOnlyParameter", "DoubleStarParameter")
NAMES = PARAMETERS + (
    "Name", "NameTarget", "NamedExpression", "DeclaredName", "AsName", "FunctionDef", "AsyncFunctionDef", "ClassDef",
    "MatchAs", "MatchCapture", "MatchStar", "MatchRest",
)


def instructions(code):
    yield from dis.get_instructions(code)
    for inner in code.co_consts:
        if isinstance(inner, types.CodeType):
            yield from instructions(inner)


def attribute_names(source):
    """The names of attributes, by where they end; none where a statement stands where only the compiler refuses it."""
    try:
        code = compile(source, "t.py", "exec")
    except SyntaxError:
        return {}
    found = [i for i in instructions(code) if i.opname in ATTRIBUTES]
    return {(i.positions.end_lineno, i.positions.end_col_offset): i.argval for i in found}


class Marks(scope_trees.Answers):
    """The answers of a program beside where its reads lead."""

    def __init__(self, source, builtins):
        super().__init__(source, builtins)
        tree = self.tables.tree
        self.attributes = attribute_names(source)
        self.classes = [n.name for n in ast.walk(tree) if isinstance(n, ast.ClassDef)]
        self.bare = {id(n.target) for n in ast.walk(tree) if isinstance(n, ast.AnnAssign) and n.value is None}
        self.functions = {}
        for n in ast.walk(tree):
            if isinstance(n, (ast.FunctionDef, ast.AsyncFunctionDef, ast.Lambda)):
                args = n.args
                for arg in args.posonlyargs + args.args + args.kwonlyargs + [a for a in (args.vararg, args.kwarg) if a]:
                    self.functions[id(arg)] = n
        self.spelling = [self.spelled(*row) for row in zip(self.nodes, self.origin)]

    def table(self, node, origin):
        """The table of the scope in which the node's name stands."""
        if node[0] in PARAMETERS:
            return self.tables.table_of[id(self.functions[id(origin)])]
        return self.tables.stands[id(origin)]

    def form(self, table, name):
        """The one form of the name that the scope has."""
        forms = {name}
        for outer in self.classes:
            forms |= {"_" + outer.lstrip("_") + name, "_" + outer + name, outer.lstrip("_") + name}
        found = forms & set(table.get_identifiers())
        if len(found) != 1:
            raise ValueError((name, found))
        return found.pop()

    def spelled(self, node, origin):
        if node[0] in ("Attribute", "AttributeTarget"):
            place = (origin.end_lineno, origin.end_col_offset)
            if place not in self.attributes and node[1].startswith("__"):
                raise ValueError(node)
            return self.attributes.get(place, node[1])
        return self.form(self.table(node, origin), node[1]) if node[0] in NAMES else node[1]

    def names_read(self):
        return [(n, name) for n, name in enumerate(self.spelling) if name is not None]

    def home(self, table, name):
        found = table.lookup(name)
        if found.is_declared_global():
            return 0
        if not found.is_nonlocal():
            return self.number[table.get_id()]
        now = self.parent[table.get_id()]
        while now.get_type() != "function" or not scope_trees.symbol(now, name) or not now.lookup(name).is_local():
            now = self.parent[now.get_id()]
        return self.number[now.get_id()]

    def bound(self, n):
        """The name that a node binds."""
        node, origin = self.nodes[n], self.origin[n]
        if node[0] in ("Name", "DeclaredName") or id(origin) in self.bare:
            return None
        if node[0] == "Alias":
            first = origin.asname or origin.name.split(".")[0]
            return self.form(self.table(node, origin), first)
        if node[0] == "AsName" and not isinstance(origin, ast.ExceptHandler):
            return None
        return self.spelling[n] if node[0] in NAMES else None

    def binders(self):
        out = []
        for n, (node, origin) in enumerate(zip(self.nodes, self.origin)):
            name = self.bound(n)
            if name is not None:
                out.append((n, self.home(self.table(node, origin), name), name))
        return out

    def attribute_targets(self, context):
        return [
            (n, 0, self.spelling[n])
            for n, origin in enumerate(self.origin)
            if self.nodes[n][0] == "AttributeTarget" and isinstance(origin.ctx, context) and id(origin) not in self.bare
        ]

    def stores(self):
        return self.attribute_targets(ast.Store)

    def deletes(self):
        return self.attribute_targets(ast.Del)

    def leads(self):
        return [(n, answer) for n, answer in self.reads() if answer != "Nowhere"]

    def scopes(self):
        """Each scope with the scope around it."""
        around = {}
        for table in scope_trees.every_table(self.tables.top):
            outer = self.parent.get(table.get_id())
            around[self.number[table.get_id()]] = None if outer is None else self.number[outer.get_id()]
        return sorted(around.items())

    def places(self):
        """The nodes of which `ast` says where they stand, each with the scope there; the root stands in the module."""
        openers = {id(node) for node in self.tables.opener.values()}
        out = [(0, 0)]
        for n, (node, origin) in enumerate(zip(self.nodes, self.origin)):
            if n and id(origin) in self.tables.stands and (id(origin) not in openers or self.number.get(self.tables.table_of[id(origin)].get_id()) == n):
                out.append((n, self.number[self.tables.stands[id(origin)].get_id()]))
        return out

    def asked_names(self):
        """The names of which it is asked whether they are local: all names, and those that imports bind."""
        found = {self.spelling[n] for n, node in enumerate(self.nodes) if node[0] in NAMES}
        return sorted(found | {name for n in range(len(self.nodes)) for name in [self.bound(n)] if name is not None})

    def loads(self):
        """Each read with the scope to which it leads, and its name there."""
        where = dict(self.reads())
        out = []
        for n, answer in where.items():
            if answer == "Global":
                out.append((n, 0, self.spelling[n]))
            elif " " in answer:
                out.append((n, int(answer.split()[1]), self.spelling[n]))
        return out


def grouped(marks):
    """The nodes of each name of each scope."""
    out = {}
    for n, scope, name in marks:
        out.setdefault((scope, name), []).append(n)
    return sorted(out.items())
