#!/usr/bin/env bash
# Times the scopes of made modules of 15,000, 30,000, 60,000 and 120,000 statements: classes with methods, functions and
# comprehensions within; names that are each bound once; one name; reads of builtins; and functions within functions.
# Prints the nodes, the microseconds that the scopes took of the clock, and peak memory with tokens and tree. No proof
# speaks of time or memory.
root=$(dirname "$(dirname "$(readlink -f "$0")")")
program=$root/crates/list_scopes/out/list_scopes
[ -x "$program" ] || { echo "skipped: the program is missing"; exit 0; }
work=$(mktemp -d)
trap 'rm -rf "$work"' EXIT
python3.11 - "$work" <<'P'
import os, sys
work = sys.argv[1]
CLASS = """class C{0}(B):
    limit = 5
    def find(self, items, key=None):
        global counter
        counter = counter + 1
        names = [item.name for item in items if item.key == key]
        def inner(value):
            nonlocal names
            names = names + [value]
            return len(names) + self.__size
        for item in items:
            total = sum(inner(other) for other in item.others)
            print(total, self.limit)
        if key is None:
            return names
"""
NESTED = "".join("    " * d + line.format(d) for d in range(20) for line in ("def f{0}(a{0}):\n", "    b{0} = a{0} + a0 + top\n", "    a0.x = a{0}\n"))
SHAPES = {
    "classes": (15, lambda i: CLASS.format(i)),
    "many names": (1, lambda i: f"x{i + 1} = x{i}\n"),
    "one name": (1, lambda i: "x = x + x\n"),
    "builtins": (1, lambda i: "print(len(x), zip, __name__)\n"),
    "nested functions": (60, lambda i: NESTED),
}
for shape, (statements, text) in SHAPES.items():
    for size in (15000, 30000, 60000, 120000):
        with open(os.path.join(work, f"{shape} {size}.py"), "w") as file:
            for i in range(size // statements):
                file.write(text(i))
P
cd "$work" || exit 1
for shape in classes "many names" "one name" builtins "nested functions"; do
  for size in 15000 30000 60000 120000; do
    /usr/bin/time -f "%M KB" -o time "$program" time "$shape $size.py" >out
    echo "$shape, $size statements: $(tail -n 1 out), $(tail -n 1 time)"
  done
done
