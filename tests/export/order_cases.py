#!/usr/bin/env python3
"""Makes exports whose lines of one level have to be put in order: tests/vectors/02/order.tsv.

    python3 order_cases.py TABLE

TABLE is the file to write, in the columns of tests/vectors/02/01_export.tsv, which tests/vectors/README.md describes. The stores are small, with
several nodes in one level. The roots stand in every order, and their signs change; each file is worked out by lines.py from the definition,
word by word: the list of all nodes that the ways of the roots meet, with repeats; of equal ones the first stays; then the deepest level first.
Neither the library nor the Rust is asked. The same script gives the same table.

The script stops unless the cases tell the definition from each wrong reading in WRONG, which gives another file for some of them.
"""
import itertools
import random
import sys

import lines
from rust_cases import BUCKETS, linked, listed

# Stores as their nodes from number 2 on, (level, then, else), with the roots that are put in every order, and how many levels there are. In all
# of them numbers run against the order of meeting somewhere.
STORES = {
    "two nodes of one level, the smallest": (2, [(1, 1, -1), (0, 1, 2), (0, 1, -2)], (4, 3)),
    "a node that two roots share": (3, [(2, 1, -1), (1, 1, 2), (1, 2, -1), (0, 4, 3), (0, 3, -4), (0, 2, 4)], (5, 6, 7)),
    "a node under else before a later root's then": (3, [(2, 1, -1), (1, 2, 1), (1, 2, -1), (1, 1, -2), (0, 5, 4), (0, 3, -5)], (6, 7, 3)),
    "the deepest node under the last root's else": (3, [(2, 1, -1), (1, 1, -1), (0, 3, -3), (0, 3, 1), (1, 1, 2), (0, 1, 6)], (5, 4, 7)),
    "the terminal after every other node": (4, [(3, 1, -1), (2, 2, 1), (1, 3, -2), (0, 4, -3), (2, 2, -1), (1, 6, 2), (0, 7, 6)], (8, 5, 1)),
    "numbers against the order": (3, [(2, 1, -1), (1, 1, -1), (1, 1, 2), (1, 1, -2), (1, 2, 1), (1, 2, -1), (1, 2, -2), (0, 8, 7), (0, 6, 5), (0, 4, 3)],
                                  (9, 10, 11)),
    "all under a root before the next root": (3, [(1, 1, -1), (0, 1, 2), (2, 1, -1), (1, 1, 4)], (3, 5, 2)),
    "all under then before else": (4, [(2, 1, -1), (3, 1, -1), (2, 1, 3), (1, 2, 1), (0, 5, 4)], (6, 5, 4)),
}
EVERY_SIGN = "two nodes of one level, the smallest", "a node that two roots share"  # every sign of every root, in every order
REPEATED = "a node under else before a later root's then"
AT_RANDOM = 40


def selections(roots):
    """One, two or three of the roots, in every order."""
    return [list(x) for k in range(1, len(roots) + 1) for x in itertools.permutations(roots, k)]


def signed(roots):
    return [[s * r for s, r in zip(signs, roots)] for signs in itertools.product((1, -1), repeat=len(roots))]


def in_every_order(k, what, levels, nodes, roots):
    """The cases of a store, as (what it is about, levels, nodes, roots). Signs change from one order to the next, or each order has all."""
    for n, some in enumerate(selections(roots)):
        signs = signed(some)
        yield from ((what, levels, nodes, way) for way in (signs if what in EVERY_SIGN else [signs[(n + k) % len(signs)]]))


def repeats():
    levels, nodes, (a, b, _) = STORES[REPEATED]
    some = [[a, a], [a, -a], [b, b, a], [b, -b, a], [a, b, a], [-a, b, a], [a, a, -b], [b, a, a], [a, b, b], [-1, a, -1]]
    return [("roots that repeat", levels, nodes, x) for x in some] + [("no node but the terminal", levels, nodes, x) for x in ([], [1], [-1], [1, 1, -1])]


def some_nodes(rng):
    """Up to ten nodes of 4 levels, each over nodes before it."""
    nodes = {}
    for _ in range(10):
        level = rng.randrange(4)
        deeper = [1] + [m for m in nodes if nodes[m][0] > level]
        node = level, rng.choice(deeper), rng.choice(deeper) * rng.choice((1, -1))
        if node[1] != node[2] and node not in nodes.values():
            nodes[len(nodes) + 2] = node
    return nodes


def drawn(rng):
    """A store and three roots, in which some two lines of one level stand against their numbers."""
    while True:
        nodes = some_nodes(rng)
        roots = [rng.choice(list(nodes)) * rng.choice((1, -1)) for _ in range(3)]
        if lines.exported(nodes, roots, range(4)) != lines.exported(nodes, roots, range(4), meeting=by_number):
            return "at random", 4, list(nodes.values()), roots


def chosen():
    rng = random.Random(20261117)
    ordered = [case for k, (what, store) in enumerate(STORES.items()) for case in in_every_order(k, what, *store)]
    return ordered + repeats() + [drawn(rng) for _ in range(AT_RANDOM)]


# Wrong readings ----------------------------------------------------------------------------------------------------------------


def by_number(nodes, roots):
    return sorted(lines.by_first_meeting(nodes, roots))


def else_first(nodes, roots):
    return lines.by_first_meeting({n: (level, els, then) for n, (level, then, els) in nodes.items()}, roots)


def last_root_first(nodes, roots):
    return lines.by_first_meeting(nodes, roots[::-1])


def last_meeting(nodes, roots):
    met = [n for root in roots for n in lines.way(nodes, root)]
    return lines.first_stays(met[::-1])[::-1]


def in_rows(nodes, starts):
    """Row by row: the nodes themselves, then their children."""
    met = []
    while starts:
        met += starts
        starts = [abs(x) for n in starts if n != 1 for x in nodes[n][1:]]
    return lines.first_stays(met)


def roots_before_all(nodes, roots):
    return lines.first_stays([abs(x) for x in roots] + lines.by_first_meeting(nodes, roots))


def breadth_first(nodes, roots):
    return lines.first_stays([n for root in roots for n in in_rows(nodes, [abs(root)])])


WRONG = (by_number, else_first, last_root_first, last_meeting, roots_before_all, breadth_first)


# The table ---------------------------------------------------------------------------------------------------------------------


def order_for(levels, k):
    """Levels of the variables: their own numbers, the other way round, or shifted."""
    return [[v, levels - 1 - v, (v + 1) % levels][k % 3] for v in range(levels)]


def row(k, what, levels, nodes, roots, text):
    count, slots, version = len(nodes) + 1, len(nodes) + 1 + k % 2, 2 + k % 5 // 4
    order, numbered = order_for(levels, k), dict(enumerate(nodes, 2))
    file = lines.exported(numbered, roots, order, text, version)
    lists = [[0] + [x[i] for x in nodes] + [0] * (slots - count) for i in range(3)]
    nexts, heads = linked(nodes, slots)
    store = [levels, count, *map(listed, lists), listed(nexts), BUCKETS, listed("%d:%d" % x for x in enumerate(heads) if x[1])]
    size = 256 + 32 * count + 24 * levels + 16 * len(roots)
    return store + [listed(roots), listed(order), int(text), version, 0] + ["-"] * 5 + [0, 0, size, count, count, 0, len(file), file.hex(), what]


def told_from(wrong, cases):
    """How many cases have another file by a wrong reading."""
    stores = [(dict(enumerate(nodes, 2)), roots, range(levels)) for _, levels, nodes, roots in cases]
    return sum(lines.exported(*x) != lines.exported(*x, meeting=wrong) for x in stores)


def main():
    cases = chosen()
    told = {wrong.__name__: told_from(wrong, cases) for wrong in WRONG}
    assert all(told.values()), "a wrong reading gives the same files"
    assert told_from(lines.by_marks, cases) == 0, "a walk with marks gives other files"
    rows = [row(k, *case, text) for k, case in enumerate(cases) for text in (True, False)]
    with open(sys.argv[1], "w") as f:
        f.write("".join("\t".join(map(str, x)) + "\n" for x in rows))
    print("%d cases; stores and roots with another file by a wrong reading: %s" % (len(rows), ", ".join("%s %d" % x for x in told.items())))


if __name__ == "__main__":
    main()
