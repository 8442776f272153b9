#!/usr/bin/env python3
"""Makes joins of every pair of edges of small stores: tests/vectors/02/joins.tsv.

    python3 make_cases.py TABLE

TABLE is the file to write; tests/vectors/README.md describes its columns. The stores are all of up to three levels with up to three nodes beside
node 1, and some at random of up to six levels. The library isn't asked, and no two sides are joined: an answer is worked out from truth tables
alone. A function is a number whose bit k is its answer at setting k, where bit l of k is level l.

1. An operation on two edges is that operation on the bits of their functions.
2. The nodes of a function: where it hangs on no level, it is node 1. Else the first level that it hangs on is its node's, whose sides are the
   function with that level fixed to yes and to no.
3. A node says yes at the setting of all yes: an edge is the node of its function where that says yes there, else the minus of its opposite's.
4. New are the nodes of the result whose functions no node of the store has: all under then before all under else, each after its children.

The script stops unless the cases tell these answers from each wrong reading in WRONG. The same script gives the same table.
"""
import random
import sys

OPERATIONS = {"and": lambda f, g: f & g, "or": lambda f, g: f | g, "xor": lambda f, g: f ^ g}
EVERY = {0: 0, 1: 1, 2: 3, 3: 3}  # of so many levels all stores that have up to so many nodes beside node 1
AT_RANDOM = {2: (6, 7), 3: (24, 9), 4: (12, 9), 5: (10, 9), 6: (10, 9)}  # of so many levels so many stores, with so many nodes at most
ROOMS = (-1, 0, 2)  # free slots beyond the new nodes, as tests/firmware/small_joins.c lends them


# Functions ---------------------------------------------------------------------------------------------------------------------


def settings(levels):
    return range(1 << levels)


def opposite(levels, f):
    return f ^ (1 << (1 << levels)) - 1


def fixed(levels, f, level, yes):
    """A function with a level fixed: what it says where that level is so."""
    return sum((f >> (k | 1 << level if yes else k & ~(1 << level)) & 1) << k for k in settings(levels))


def hangs_on(levels, f):
    """The levels that a function hangs on."""
    return [l for l in range(levels) if fixed(levels, f, l, True) != fixed(levels, f, l, False)]


def says_yes_at_all_yes(levels, f):
    return f >> (1 << levels) - 1 & 1 == 1


def node_of(levels, f):
    """The function of the node that an edge with this function leads to."""
    return f if says_yes_at_all_yes(levels, f) else opposite(levels, f)


class Functions:
    """The functions of so many levels, each taken apart once."""

    def __init__(self, levels):
        self.levels, self.parts = levels, {}

    def sides(self, f):
        """Level, then and else side of a function that hangs on a level; None for another."""
        if f not in self.parts:
            first = hangs_on(self.levels, f)[:1]
            self.parts[f] = (first[0], fixed(self.levels, f, first[0], True), fixed(self.levels, f, first[0], False)) if first else None
        return self.parts[f]

    def walk(self, f, under=lambda then, els: then + els):
        """The functions of all nodes under an edge, with repeats, each after its children; node 1 isn't among them."""
        f = node_of(self.levels, f)
        if self.sides(f) is None:
            return []
        _, then, els = self.sides(f)
        return under(self.walk(then, under), self.walk(els, under)) + [f]


# Stores ------------------------------------------------------------------------------------------------------------------------


class Store:
    """Nodes from number 2 on, as (level, then, else), and what each number's node says."""

    def __init__(self, levels, nodes):
        self.levels, self.nodes = levels, nodes
        self.said = [None, (1 << (1 << levels)) - 1]
        for node in nodes:
            self.said.append(sum(self.answer(node, k) << k for k in settings(levels)))

    def count(self):
        return len(self.nodes) + 1

    def answer(self, node, k):
        level, then, els = node
        return self.function(then if k >> level & 1 else els) >> k & 1

    def function(self, edge):
        return self.said[edge] if edge > 0 else opposite(self.levels, self.said[-edge])

    def edges(self):
        return [sign * n for n in range(1, self.count() + 1) for sign in (1, -1)]


def free_nodes(levels, nodes):
    """The nodes that a store may have next."""
    known = list(enumerate(nodes, 2))
    for level in range(levels):
        below = [1] + [n for n, node in known if node[0] > level]
        for then in below:
            for els in [sign * n for n in below for sign in (1, -1)]:
                if then != els and (level, then, els) not in nodes:
                    yield level, then, els


def every_store(levels, most):
    """The node lists of all stores of so many levels, with up to so many nodes beside node 1."""
    found = last = [[]]
    for _ in range(most):
        last = [nodes + [node] for nodes in last for node in free_nodes(levels, nodes)]
        found = found + last
    return found


def some_store(rng, levels, most):
    """A level is drawn first, so that nodes are spread over them; then a node over one of the last ones where there is any."""
    nodes = []
    for _ in range(rng.randint(2, most)):
        free = list(free_nodes(levels, nodes))
        level = rng.choice(sorted({node[0] for node in free}))
        nodes.append(rng.choice([node for node in free if node[0] == level and max(node[1], abs(node[2])) > len(nodes) - 3]
                                or [node for node in free if node[0] == level]))
    return nodes


def chosen():
    """The stores, as (levels, nodes, what they are)."""
    rng = random.Random(20261117)
    every = [(levels, nodes, "every store") for levels, most in EVERY.items() for nodes in every_store(levels, most)]
    return every + [(levels, some_store(rng, levels, most), "at random") for levels, (n, most) in AT_RANDOM.items() for _ in range(n)]


# Joins -------------------------------------------------------------------------------------------------------------------------


def first_stays(entries):
    return list(dict.fromkeys(entries))


def edge_to(levels, numbers, f):
    n = numbers[node_of(levels, f)]
    return n if says_yes_at_all_yes(levels, f) else -n


def stored(functions, store, f, order, known=None):
    """The edge that says f, and the nodes that the store lacks for the functions of a list, in its order. `known` are the functions that are
    looked up, those of all its nodes."""
    levels = store.levels
    numbers = {said: n for n, said in enumerate(known or store.said) if n}
    lacking = [g for g in first_stays(order) if g not in numbers]
    numbers.update((g, n) for n, g in enumerate(lacking, store.count() + 1))
    parts = [functions.sides(g) for g in lacking]
    return edge_to(levels, numbers, f), [(l, edge_to(levels, numbers, then), edge_to(levels, numbers, els)) for l, then, els in parts]


def joined(functions, store, op, a, b):
    f = OPERATIONS[op](store.function(a), store.function(b))
    return stored(functions, store, f, functions.walk(f))


def in_room(answer, room):
    """What a join gives where so many slots are free: refusal, root, new nodes."""
    root, nodes = answer
    return (0, root, nodes) if len(nodes) <= room else (40, 0, [])


# Wrong readings ----------------------------------------------------------------------------------------------------------------


def else_first(functions, store, op, a, b):
    f = OPERATIONS[op](store.function(a), store.function(b))
    return stored(functions, store, f, functions.walk(f, lambda then, els: els + then))


def deepest_first(functions, store, op, a, b):
    f = OPERATIONS[op](store.function(a), store.function(b))
    return stored(functions, store, f, sorted(first_stays(functions.walk(f)), key=lambda g: -functions.sides(g)[0]))


def or_made_as_and(functions, store, op, a, b):
    return joined(functions, store, "and" if op == "or" else op, a, b)


def xor_made_as_or(functions, store, op, a, b):
    return joined(functions, store, "or" if op == "xor" else op, a, b)


def xor_by_ands(functions, store, op, a, b):
    """(a and not b) or (not a and b): the nodes of the two ands stay."""
    if op != "xor":
        return joined(functions, store, op, a, b)
    f, g = store.function(a), store.function(b)
    order = functions.walk(f & ~g) + functions.walk(~f & g) + functions.walk(f ^ g)
    return stored(functions, store, f ^ g, order)


def no_left_sign(functions, store, op, a, b):
    return joined(functions, store, op, abs(a), b)


def no_right_sign(functions, store, op, a, b):
    return joined(functions, store, op, a, abs(b))


def no_sign_of_the_result(functions, store, op, a, b):
    root, nodes = joined(functions, store, op, a, b)
    return abs(root), nodes


def all_nodes_new(functions, store, op, a, b):
    """Nodes that the store has are made again."""
    f = OPERATIONS[op](store.function(a), store.function(b))
    return stored(functions, store, f, functions.walk(f), store.said[:2])


def in_room_to_spare(answer, room):
    """40 where the store is full, though the result is there."""
    return in_room(answer, room) if room > 0 else (40, 0, [])


def in_one_more(answer, room):
    """40 where the nodes just fit."""
    return in_room(answer, room) if not answer[1] or len(answer[1]) < room else (40, 0, [])


def always_in_room(answer, _):
    return (0,) + answer


WRONG = ((else_first, in_room), (deepest_first, in_room), (or_made_as_and, in_room), (xor_made_as_or, in_room), (xor_by_ands, in_room),
         (no_left_sign, in_room), (no_right_sign, in_room), (no_sign_of_the_result, in_room), (all_nodes_new, in_room),
         (joined, in_room_to_spare), (joined, in_one_more), (joined, always_in_room))


# The table ---------------------------------------------------------------------------------------------------------------------


def pairs(store):
    """Each pair of edges in one order; the operations give the same in the other."""
    edges = store.edges()
    return [(a, b) for k, a in enumerate(edges) for b in edges[k:]]


def listed(entries, mark):
    return mark.join(entries) or "-"


def written(nodes):
    return listed(["%d:%d:%d" % node for node in nodes], ",")


class Case:
    """A store with the answers of all its pairs."""

    def __init__(self, functions, levels, nodes, what):
        self.store, self.what = Store(levels, nodes), what
        self.answers = {op: [joined(functions, self.store, op, a, b) for a, b in pairs(self.store)] for op in OPERATIONS}

    def row(self):
        lacking = first_stays(written(nodes) for answers in self.answers.values() for _, nodes in answers if nodes)
        place = {text: k for k, text in enumerate(lacking)}
        entries = [listed([str(root) if not nodes else "%d:%d" % (root, place[written(nodes)]) for root, nodes in answers], ",")
                   for answers in self.answers.values()]
        return [str(self.store.levels), written(self.store.nodes), listed(lacking, " "), *entries, self.what]

    def told_from(self, functions, wrong, wrong_room):
        """How many calls, in both orders and with each room, have another answer by a wrong reading."""
        told = 0
        for op, answers in self.answers.items():
            for (a, b), right in zip(pairs(self.store), answers):
                for other in [wrong(functions, self.store, op, *x) for x in ((a, b), (b, a))]:
                    rooms = [len(right[1]) + more for more in ROOMS]
                    told += sum(in_room(right, room) != wrong_room(other, room) for room in rooms if room >= 0)
        return told


def main():
    functions = {levels: Functions(levels) for levels in range(7)}
    cases = [Case(functions[levels], levels, nodes, what) for levels, nodes, what in chosen()]
    told = {(wrong.__name__, room.__name__): sum(c.told_from(functions[c.store.levels], wrong, room) for c in cases) for wrong, room in WRONG}
    assert all(told.values()), "a wrong reading gives the same answers: %s" % told
    assert not any(c.told_from(functions[c.store.levels], joined, in_room) for c in cases), "the two orders of a pair differ"
    with open(sys.argv[1], "w") as f:
        f.write("".join("\t".join(c.row()) + "\n" for c in cases))
    print("%d stores; joins with another answer by a wrong reading: %s" % (
        len(cases), ", ".join("%s %d" % (wrong if room == "in_room" else room, n) for (wrong, room), n in told.items())))


if __name__ == "__main__":
    main()
