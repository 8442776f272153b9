#!/usr/bin/env python3
"""Makes the stored cases of the program `vectors_store`.

    python3 make_cases.py STORES EVALUATE OUTDIR

STORES has a store a line and 3 where it breaks its rules, else 0. EVALUATE has a store a line, a root, a setting, the refusal and the
answer. Columns stand between tabs: the level count; the count; the lists level, then, else and next, with commas; the number of
bucket heads; the heads that aren't 0, as `bucket:head`; then for STORES the refusal, for EVALUATE the root, the setting as hexadecimal
bytes, the refusal and the answer (1 yes, 0 no); `-` is nothing. OUTDIR is the folder to write to. The same lists and the same
script give the same files, byte for byte.

A case is a store, whatever its lists hold, and the answer of the check of its rules, or of the evaluation of a root at a setting.
Every answer is worked out by the section 'The document' below, a plain reading of document 01, 'Store and meaning'; for the lines
of STORES and EVALUATE it must be theirs, else the script stops. Besides these lines the cases are:

- stores built by the document's own steps (a node not found takes the next number): empty ones, with few nodes and with many, all
  slots used and with slots to spare, with chains of one node and of many, one with 32,767 nodes;
- such a store with one entry changed, in every position class: counts and level counts at and around each limit; each list one
  shorter and one longer; 255 and 257 heads; of used slots the level, then, else and next; heads; slot 1; unused slots; chains that
  loop, leave their bucket, leave a node out, or are in another order; two nodes alike, with chains as they should be and not;
- such stores with two changes, or with an old node's entries exchanged for another's;
- truth tables: every edge of small stores at every setting;
- roots and settings that evaluation refuses, in stores that keep the rules and in stores that don't.

The files:

    cases.bin       all cases
    falsified.bin   some of each kind, each with another answer than it has
    cut.bin         a few cases and a last one that isn't whole
    index.tsv       for each of all cases its source and judge: see tests/cases/record.py

The program keeps the lists from one case to the next in one list of 131,500 numbers of 16 bits: 32,800 each for level, then, else and
next, and 300 heads; all are 0 before the first case. A case is 23 bytes, numbers of 16 bits with the lowest byte first: its kind (1
the rules, 2 an evaluation); level count, count, the lengths of the five lists, the root, the length of the setting, how many
stretches of the list change; then in one byte each the refusal, or 0, and 1 for an answer of yes. The stretches follow, each as
where it starts (three bytes), how many numbers it has (two) and these; then the setting.
"""
import itertools
import os
import random
import sys

sys.path.insert(0, os.path.join(os.path.dirname(os.path.abspath(__file__)), "..", "cases"))
from record import DOCUMENT, Record  # noqa: E402

NODE_LIMIT, LEVEL_LIMIT, BUCKETS = 1000000, 4096, 256
MANY = 32767  # nodes of the largest store: the numbers of a case have 16 bits
SLOTS, HEADS = 32800, 300
LISTS = ("level", "then", "els", "next", "heads")
START = dict(zip(LISTS, range(0, 5 * SLOTS, SLOTS)))


class Store:
    """The lists as they are lent: Python's place n - 1 is slot n."""

    def __init__(self, levels, count, level, then, els, next_, heads):
        self.levels, self.count = levels, count
        self.level, self.then, self.els, self.next, self.heads = level, then, els, next_, heads

    def copy(self):
        return Store(self.levels, self.count, self.level[:], self.then[:], self.els[:], self.next[:], self.heads[:])


# The document ------------------------------------------------------------------------------------------------------------------


def bucket(level, then, els):
    """'level + 3 x then + 5 x else, where the sum wraps at 65,536, remainder by 256'"""
    return (level + 3 * then + 5 * els) % 2 ** 32 % 256


def nodes_fit(s):
    for n in range(2, s.count + 1):
        level, then, els = s.level[n - 1], s.then[n - 1], s.els[n - 1]
        if then <= 0 or then == els:  # 'then is positive and differs from else'
            return False
        if level >= s.levels:  # 'levels are below the store's level count'
            return False
        for child in (abs(then), abs(els)):  # 'children are lower numbers, never 0, at deeper levels'
            if child == 0 or child >= n:
                return False
            if child > 1 and s.level[child - 1] <= level:
                return False
    return True


def none_alike(s):
    nodes = list(zip(s.level, s.then, s.els))[1:s.count]
    return len(set(nodes)) == len(nodes)


def chains_right(s):
    """'each chain holds just its bucket, newest first'"""
    members = {b: [] for b in range(BUCKETS)}
    for n in range(s.count, 1, -1):
        members[bucket(s.level[n - 1], s.then[n - 1], s.els[n - 1])].append(n)
    for b in range(BUCKETS):
        n = s.heads[b]
        for m in members[b]:
            if n != m:
                return False
            n = s.next[n - 1]
        if n != 0:  # 'zero ends the chain'
            return False
    return True


def rest_zero(s):
    """'slot 1 and unused slots are zero'"""
    return all(not any(x[:1] + x[s.count:]) for x in (s.level, s.then, s.els, s.next))


def keeps_rules(s):
    slots = len(s.level)
    return (all(len(x) == slots for x in (s.then, s.els, s.next))  # 'the four slot lists are equally long'
            and 1 <= s.count <= slots and s.count <= NODE_LIMIT  # 'the count lies from 1 to that length' and 1,000,000
            and len(s.heads) == BUCKETS  # 'there are 256 bucket heads'
            and s.levels <= LEVEL_LIMIT  # 'A store has at most 4,096 levels'
            and nodes_fit(s) and none_alike(s) and chains_right(s) and rest_zero(s))


def says(s, edge, setting):
    """'An edge's answer is its node's, turned over under a minus; a node's answer is that of its then edge where its level is yes,
    else of its else edge.' 'Node 1 is yes.'"""
    answer = True
    while True:
        if edge < 0:
            answer, edge = not answer, -edge
        if edge == 1:
            return answer
        edge = s.then[edge - 1] if setting[s.level[edge - 1]] == 1 else s.els[edge - 1]


def evaluated(s, root, setting):
    """The refusal, or 0, and the answer. 'Evaluation gives 3, 4.'"""
    if not keeps_rules(s):
        return 3, 0
    if not 1 <= abs(root) <= s.count or len(setting) != s.levels or max(setting, default=0) > 1:
        return 4, 0
    return 0, int(says(s, root, setting))


def empty(levels, slots):
    """'an empty store counts 1, all else zero but its level count'"""
    return Store(levels, 1, [0] * slots, [0] * slots, [0] * slots, [0] * slots, [0] * BUCKETS)


def insert(s, level, then, els):
    """The next slot filled, and its chain begun with it."""
    b, n = bucket(level, then, els), s.count + 1
    s.level[n - 1], s.then[n - 1], s.els[n - 1], s.next[n - 1], s.heads[b] = level, then, els, s.heads[b], n
    s.count = n
    return n


def make(s, level, then, els, known):
    """'A node not found takes the next number. Equal children give that child; a minus on then moves to both the else and the
    result.' `known` has the nodes there are."""
    if then == els:
        return then
    sign = -1 if then < 0 else 1
    node = (level, sign * then, sign * els)
    if node not in known:
        known[node] = insert(s, *node)
    return sign * known[node]


# Stores ------------------------------------------------------------------------------------------------------------------------


def grown(rng, levels, nodes, slots):
    """A store of so many nodes, or fewer where no more are found."""
    s, known = empty(levels, slots), {}
    for _ in range(20 * nodes):
        if s.count >= nodes:
            break
        level = rng.randrange(levels)
        deeper = [n for n in range(1, s.count + 1) if n == 1 or s.level[n - 1] > level]
        make(s, level, rng.choice(deeper) * rng.choice((1, 1, -1)), rng.choice(deeper) * rng.choice((1, -1)), known)
    return s


def layered(rng, levels, nodes, slots):
    """A store of many nodes, deepest level first, about as many at each level."""
    s, known = empty(levels, slots), {}
    for level in range(levels - 1, -1, -1):
        deeper = s.count
        for _ in range(40 if level else 10 ** 6):
            if s.count < nodes - level * nodes // levels:
                make(s, level, rng.randrange(deeper) + 1, (rng.randrange(deeper) + 1) * rng.choice((1, -1)), known)
    assert s.count == nodes
    return s


def one_bucket(rng, levels, nodes, slots):
    """A store whose chains are long: of each level only nodes of three buckets are made."""
    s, known = empty(levels, slots), {}
    for level in range(levels - 1, -1, -1):
        deeper = [n for n in range(1, s.count + 1) if n == 1 or s.level[n - 1] > level]
        for then, els in itertools.product(deeper, [sign * n for n in deeper for sign in (1, -1)]):
            if s.count < nodes and then != els and bucket(level, then, els) in (7, 8, 250, 254, 255) or s.count < 4:
                make(s, level, then, els, known)
    return s


def chain_of(s, b):
    found, n = [], s.heads[b]
    while n:
        found.append(n)
        n = s.next[n - 1]
    return found


# Changes -----------------------------------------------------------------------------------------------------------------------
#
# Each gives stores that differ from a store that keeps the rules; the document says which of them still keep them.


def changed(s, list_, place, value):
    t = s.copy()
    x = getattr(t, list_)
    if 0 <= place < len(x) and x[place] != value:
        x[place] = value
        yield t


def other_counts(s):
    for count in (0, 1, 2, s.count - 1, s.count + 1, len(s.level) - 1, len(s.level), len(s.level) + 1, MANY, MANY + 1, 65535):
        if 0 <= count <= 65535 and count != s.count:
            t = s.copy()
            t.count = count
            yield t
    used = max(s.level)
    for levels in (0, 1, used, used + 1, s.levels - 1, s.levels + 1, LEVEL_LIMIT - 1, LEVEL_LIMIT, LEVEL_LIMIT + 1, 65535):
        if 0 <= levels <= 65535 and levels != s.levels:
            t = s.copy()
            t.levels = levels
            yield t


def other_lengths(s):
    for names in [(x,) for x in LISTS] + [LISTS[:4], LISTS[1:4], ("level", "next"), ("then", "els")]:
        for by in (-len(s.level), -1, 1):
            t = s.copy()
            for name in names:
                x = getattr(t, name)
                setattr(t, name, x[:max(0, len(x) + by)] if by < 0 else x + [0])
            yield t
    for heads in (0, 1, 254, 255, 257, 299):
        t = s.copy()
        t.heads = (t.heads + [0] * 43)[:heads]
        yield t


def other_slots(s, n):
    """Every entry of the slot of node n, changed in every way that a rule speaks of."""
    level, then, els, next_ = s.level[n - 1], s.then[n - 1], s.els[n - 1], s.next[n - 1]
    for v in (0, level - 1, level + 1, s.levels - 1, s.levels, 65535):
        if v >= 0:
            yield from changed(s, "level", n - 1, v)
    for v in (0, 1, -1, 2, -then, els, -els, then + 1, n - 1, n, -n, n + 1, s.count + 1, len(s.level) + 1, 32767, -32767, -32768):
        yield from changed(s, "then", n - 1, v)
    for v in (0, 1, -1, 2, -2, -els, then, -then, els + 1, n - 1, n, -n, n + 1, -n - 1, s.count + 1, len(s.level) + 1, 32767, -32767, -32768):
        yield from changed(s, "els", n - 1, v)
    others = [m for m in range(2, s.count + 1) if bucket(s.level[m - 1], s.then[m - 1], s.els[m - 1]) != bucket(level, then, els)]
    for v in [0, 1, 2, n - 1, n, n + 1, s.count, s.count + 1, len(s.level), len(s.level) + 1, 32767, 32768, 65535] + others[:1] + others[-1:]:
        yield from changed(s, "next", n - 1, v)


def other_heads(s, b):
    members = chain_of(s, b)
    for v in [0, 1, 2, s.count, s.count + 1, len(s.level), len(s.level) + 1, 32768, 65535] + members[1:2] + members[-1:]:
        yield from changed(s, "heads", b, v)


def other_zeros(s, n):
    """Slot 1 or an unused slot."""
    for name, values in (("level", (1, s.levels, 65535)), ("then", (1, -1, -32768)), ("els", (1, -1, 32767)), ("next", (1, n, 65535))):
        for v in values:
            yield from changed(s, name, n - 1, v)


def linked(s, chains):
    """The store with these chains, whatever they hold."""
    t = s.copy()
    t.next, t.heads = [0] * len(t.next), [0] * len(t.heads)
    for b, chain in chains.items():
        for n, m in zip(chain, chain[1:] + [0]):
            t.next[n - 1] = m
        t.heads[b] = chain[0] if chain else 0
    return t


def other_chains(s, b):
    """A chain of several nodes: turned round, two neighbours exchanged, one node moved to another bucket or left out, looped."""
    whole = {x: chain_of(s, x) for x in range(BUCKETS)}
    members = whole[b]
    yield linked(s, {**whole, b: members[::-1]})
    yield linked(s, {**whole, b: members[1:] + members[:1]})
    for i in range(len(members) - 1):
        yield linked(s, {**whole, b: members[:i] + [members[i + 1], members[i]] + members[i + 2:]})
    for i, n in enumerate(members):
        yield linked(s, {**whole, b: members[:i] + members[i + 1:]})
        other = (b + 1 + i) % BUCKETS
        yield linked(s, {**whole, b: members[:i] + members[i + 1:], other: sorted(whole[other] + [n], reverse=True)})
        for m in (members[0], n):
            t = s.copy()
            t.next[members[-1] - 1] = m
            yield t
    t = linked(s, whole)
    t.heads[(b + 7) % BUCKETS] = members[0]
    yield t


def twice(s, n):
    """A node like node n in the next slot: in its chain as it should be, left out of it, and behind n."""
    if s.count < len(s.level):
        t = s.copy()
        insert(t, s.level[n - 1], s.then[n - 1], s.els[n - 1])
        yield t
        u = t.copy()
        u.heads = s.heads[:]
        u.next[u.count - 1] = 0
        yield u
        for by in (("level", 1), ("then", 1), ("els", -2)):
            v = t.copy()
            getattr(v, by[0])[v.count - 1] += by[1]
            yield v
    a, b = n, n - 1
    if b >= 2:  # the two slots exchanged, with the chains of what they then hold
        t = s.copy()
        for x in (t.level, t.then, t.els):
            x[a - 1], x[b - 1] = x[b - 1], x[a - 1]
        yield relinked(t)


def relinked(s):
    """The store with the chains that its nodes should have."""
    chains = {}
    for n in range(s.count, 1, -1):
        chains.setdefault(bucket(s.level[n - 1], s.then[n - 1], s.els[n - 1]), []).append(n)
    return linked(s, chains)


def changes(s, slots, buckets):
    """All changes, at these slots and buckets."""
    yield s
    yield from other_counts(s)
    yield from other_lengths(s)
    for n in slots:
        if 2 <= n <= s.count:
            for t in other_slots(s, n):
                yield t
                if t.next == s.next:  # the same with the chains that these nodes should have, so that other rules decide
                    yield relinked(t)
            yield from twice(s, n)
    for b in buckets:
        yield from other_heads(s, b)
        if len(chain_of(s, b)) > 1:
            yield from other_chains(s, b)
    for n in {1, s.count + 1, (s.count + len(s.level) + 1) // 2, len(s.level)}:
        if n == 1 or n > s.count:
            yield from other_zeros(s, n)


# Cases -------------------------------------------------------------------------------------------------------------------------


class Case:
    def __init__(self, kind, store, root=0, setting=b""):
        self.kind, self.store, self.root, self.setting = kind, store, root, setting
        self.answer = ((0 if keeps_rules(store) else 3), 0) if kind == 1 else evaluated(store, root, setting)

    def falsified(self, rng):
        refusal, answer = self.answer
        if self.kind == 1:
            return rng.choice([(3 - refusal, 0), (refusal, 1), (4, 0)])
        if refusal:
            return rng.choice([(7 - refusal, 0), (0, 0), (0, 1)])
        return rng.choice([(0, 1 - answer), (0, 1 - answer), (4, 0), (3, 0)])


def parsed(columns):
    def numbers(x):
        return [] if x == "-" else [int(v) for v in x.split(",")]
    heads = [0] * int(columns[6])
    for pair in [] if columns[7] == "-" else columns[7].split(","):
        b, v = pair.split(":")
        heads[int(b)] = int(v)
    return Store(int(columns[0]), int(columns[1]), *(numbers(x) for x in columns[2:6]), heads)


def listed(stores, evaluate):
    for line in open(stores):
        columns = line.rstrip("\n").split("\t")
        case = Case(1, parsed(columns))
        assert case.answer == (int(columns[8]), 0), line
        yield case
    for line in open(evaluate):
        columns = line.rstrip("\n").split("\t")
        setting = b"" if columns[9] == "-" else bytes.fromhex(columns[9])
        case = Case(2, parsed(columns), int(columns[8]), setting)
        assert case.answer == (int(columns[10]), 0 if columns[11] == "-" else int(columns[11])), line
        yield case


def small_stores(rng):
    yield empty(0, 1)
    yield empty(3, 1)
    yield empty(2, 5)
    yield empty(LEVEL_LIMIT, 2)
    for levels, nodes, slots in ((1, 2, 2), (1, 2, 4), (3, 6, 6), (5, 12, 20)):
        yield grown(rng, levels, nodes, slots)
    yield one_bucket(rng, 6, 16, 18)


def of_rules(rng):
    for s in small_stores(rng):
        used = [b for b in range(BUCKETS) if s.heads[b]]
        for t in changes(s, range(2, s.count + 1), used + [0, 255, 128]):
            yield Case(1, t)
    for s in (grown(rng, 9, 60, 64), grown(rng, 40, 200, 200), one_bucket(rng, 14, 90, 97)):
        used = sorted((b for b in range(BUCKETS) if s.heads[b]), key=lambda b: len(chain_of(s, b)))
        slots = [2, 3, s.count // 2, s.count - 1, s.count] + rng.sample(range(2, s.count), 3)
        for t in changes(s, slots, used[:1] + used[-2:] + [0, 255]):
            yield Case(1, t)
        for _ in range(150):  # two changes
            once = list(other_slots(s, rng.randrange(2, s.count + 1)))
            t = rng.choice(once)
            yield Case(1, rng.choice(list(other_slots(t, rng.randrange(2, s.count + 1)))))
            yield Case(1, relinked(t))
    for levels in (LEVEL_LIMIT - 1, LEVEL_LIMIT, LEVEL_LIMIT + 1):  # the deepest level that there is
        s = empty(levels, 3)
        insert(s, levels - 1, 1, -1)
        yield Case(1, s)
        for v in (levels - 2, levels):
            t = s.copy()
            t.level[1] = v
            yield Case(1, relinked(t))


def of_tables(rng):
    """Every edge at every setting."""
    stores = [empty(0, 1), empty(2, 1)] + [grown(rng, levels, nodes, nodes + rng.randrange(2))
                                           for levels, nodes in ((1, 2), (2, 5), (3, 8), (3, 9), (4, 9), (5, 12), (6, 9))]
    for s in stores:
        for bits in itertools.product((0, 1), repeat=s.levels):
            for n in range(1, s.count + 1):
                yield Case(2, s, n, bytes(bits))
                yield Case(2, s, -n, bytes(bits))


def of_refusals(rng):
    for s in (empty(0, 1), empty(3, 2), grown(rng, 4, 7, 9), grown(rng, 9, 40, 40)):
        broken = s.copy()
        broken.next[0] = 1
        for t in (s, broken):
            setting = bytes(rng.randrange(2) for _ in range(s.levels))
            for root in (0, 1, -1, 2, -2, s.count, -s.count, s.count + 1, -s.count - 1, len(s.level) + 1, 32767, -32767, -32768):
                yield Case(2, t, root, setting)
                yield Case(2, t, root, setting + b"\0")
                yield Case(2, t, root, setting[:-1])
            for place in sorted({0, s.levels // 2, s.levels - 1} - {-1}):
                for v in (2, 3, 128, 254, 255):
                    for root in (1, -s.count, 0):
                        yield Case(2, t, root, setting[:place] + bytes([v]) + setting[place + 1:])
            for setting in (b"", b"\2", b"\1" * 255, b"\1" * 256, b"\0" * LEVEL_LIMIT):
                yield Case(2, t, s.count, setting)


def of_many(rng):
    """The largest store, with one slot to spare. It comes last, since it leaves the lists full."""
    s = layered(rng, LEVEL_LIMIT, MANY, MANY + 1)
    yield Case(1, s)
    for root in (s.count, -s.count, s.count - 1, s.count // 2, 0, s.count + 1, -32768):
        yield Case(2, s, root, bytes(rng.randrange(2) for _ in range(LEVEL_LIMIT)))
    yield Case(2, s, s.count, bytes(LEVEL_LIMIT - 1))
    yield Case(2, s, s.count, b"\1" * (LEVEL_LIMIT - 1) + b"\2")
    for t in other_counts(s):
        yield Case(1, t)
    for name in LISTS[:4]:
        yield from (Case(1, t) for t in changed(s, name, MANY, 1))
    used = [b for b in range(BUCKETS) if s.heads[b]]
    for n in (2, s.count // 3, s.count):
        for t in rng.sample(list(other_slots(s, n)), 6):
            yield Case(1, t)
    for b in (used[0], used[-1]):
        yield from (Case(1, t) for t in other_heads(s, b))
    t = s.copy()
    t.next[chain_of(s, used[5])[-1] - 1] = chain_of(s, used[5])[0]
    yield Case(1, t)
    insert(s, *next(x for x in ((0, a, -b) for a in range(2, 99) for b in range(2, 99)) if x not in set(zip(s.level, s.then, s.els))))
    yield Case(1, s)  # as it should be, but for the limit
    yield Case(2, s, 1, b"\0" * LEVEL_LIMIT)
    t = s.copy()
    t.count -= 1
    yield Case(1, t)
    t = relinked(t)  # the last slot's node is in no chain any more: once that slot isn't lent, the store is full and keeps the rules
    for x in (s, t):
        for name in LISTS[:4]:
            setattr(x, name, getattr(x, name)[:MANY])
        yield Case(1, x)


class File:
    """Cases as bytes: each store by what differs from the lists as the case before left them."""

    def __init__(self):
        self.lists, self.parts, self.cases = [0] * (4 * SLOTS + HEADS), [], 0

    def add(self, case, answer=None):
        s, stretches = case.store, []
        for name in LISTS:
            at = START[name]
            x = [v % 65536 for v in getattr(s, name)]
            assert len(x) <= (HEADS if name == "heads" else SLOTS)
            old = self.lists[at:at + len(x)]
            if old != x:
                stretches += [(at + i, x[i:j]) for i, j in runs(old, x)]
                self.lists[at:at + len(x)] = x
        numbers = [s.levels, s.count] + [len(getattr(s, name)) for name in LISTS] + [case.root % 65536, len(case.setting), len(stretches)]
        self.parts.append(bytes([case.kind]) + words(numbers) + bytes(answer or case.answer))
        for at, x in stretches:
            self.parts.append(at.to_bytes(3, "little") + words([len(x)]) + words(x))
        self.parts.append(case.setting)
        self.cases += 1

    def write(self, path, cut=0):
        data = b"".join(self.parts)
        with open(path, "wb") as f:
            f.write(data[:len(data) - cut])


def words(numbers):
    return b"".join(n.to_bytes(2, "little") for n in numbers)


def runs(old, new):
    """Where two lists of one length differ; what lies between two such places is taken along where it is short."""
    places = [i for i, (a, b) in enumerate(zip(old, new)) if a != b]
    found = []
    for i in places:
        if found and i - found[-1][1] < 3:
            found[-1][1] = i + 1
        else:
            found.append([i, i + 1])
    return found


def main():
    stores, evaluate, folder = sys.argv[1:]
    rng = random.Random(20260131)
    whole, false, cut, record = File(), File(), File(), Record()
    tallies = {}
    for name, cases in (("listed", listed(stores, evaluate)), ("rules", of_rules(rng)), ("tables", of_tables(rng)),
                        ("refusals", of_refusals(rng)), ("many", of_many(rng))):
        for k, case in enumerate(cases):
            whole.add(case)
            record.add(case.answer[0], name + {1: ", rules", 2: ", evaluation"}[case.kind], DOCUMENT, "store")
            tally = tallies.setdefault((name, case.kind), {})
            tally[case.answer] = tally.get(case.answer, 0) + 1
            if name != "many" and k % 17 == 0:
                false.add(case, case.falsified(rng))
            if name == "listed" and k in (0, 1, 2, 900):
                cut.add(case)
    whole.write(os.path.join(folder, "cases.bin"))
    false.write(os.path.join(folder, "falsified.bin"))
    cut.write(os.path.join(folder, "cut.bin"), cut=1)
    record.write(folder)
    print("cases", whole.cases, "falsified", false.cases, "cut", cut.cases)
    for (name, kind), tally in tallies.items():
        print(name, {1: "rules", 2: "evaluation"}[kind], " ".join("%d/%d: %d" % (*a, n) for a, n in sorted(tally.items())))


main()
