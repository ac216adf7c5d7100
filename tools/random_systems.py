#!/usr/bin/env python3
"""The least solutions of the 200 systems from a seed on which infer_systems' tests try the solvers, found apart from them.

usage: tools/random_systems.py

Makes the systems as `random_system` of crates/infer_systems/src/tests.rt does, and solves each by plain rounds: every
variable starts with no value, each round gives every variable its right side under the sets of the last round, and the
rounds end where nothing changes. There is no worklist here, and no order of variables. Prints how many variables there are
and a digest of their sets, which stand in those tests. A set is read as a number with one bit a value, and 99 for
Uninferable.
"""

WORD = 2**64
FACTOR = 6364136223846793005
SYSTEMS = 200


class Seed:
    """Numbers from a seed."""

    def __init__(self, state):
        self.state = state

    def below(self, bound):
        self.state = (self.state * FACTOR + 1442695040888963407) % WORD
        return (self.state >> 33) % bound


def random_rule(seed):
    var, other, value = seed.below(16), seed.below(16), seed.below(7)
    kinds = ["nothing", "unknown", "value", "copy", "copy", "more", "more", "both", "both", "when"]
    return kinds[seed.below(10)], var, other, value


def random_system(seed):
    rules = [random_rule(seed) for _ in range(seed.below(12) + 1)]
    return rules, seed.below(5)


def joined(limit, first, second):
    """The union: None is Uninferable, and what has more values than the limit."""
    if first is None or second is None or len(first | second) > limit:
        return None
    return first | second


def right_side(rule, limit, sets):
    kind, var, other, value = rule
    first, second = sets[var % len(sets)], sets[other % len(sets)]
    nothing = frozenset()
    if kind == "nothing" or (kind == "when" and first == nothing):
        return nothing
    if kind == "unknown":
        return None
    if kind == "value":
        return joined(limit, frozenset([value]), nothing)
    if kind == "copy":
        return joined(limit, first, nothing)
    if kind == "more":
        return joined(limit, first, frozenset([value]))
    if kind == "both":
        return joined(limit, first, second)
    return joined(limit, second, nothing)


def least_solution(rules, limit):
    sets = [frozenset()] * len(rules)
    while True:
        after = [right_side(rule, limit, sets) for rule in rules]
        if after == sets:
            return sets
        sets = after


def bits(values):
    return 99 if values is None else sum(1 << value for value in values)


def main():
    seed, digest, count = Seed(1), 0, 0
    for _ in range(SYSTEMS):
        for values in least_solution(*random_system(seed)):
            digest = (digest * FACTOR + bits(values)) % WORD
            count += 1
    print(f"{SYSTEMS} systems, {count} variables, digest {digest}")


if __name__ == "__main__":
    main()
