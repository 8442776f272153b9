#!/usr/bin/env python3
"""Makes the stored loads, tests/vectors/loads, which tests/firmware replays.

    python3 make_cases.py LOAD ROOM FILES OUTDIR

A case is a file, what a load is lent with it, and what the load gives. LOAD and ROOM have a case a line, columns between tabs, `-` for
none; FILES is the folder of ROOM's files. OUTDIR is the folder to write to. Files over 12,000 bytes are left out. The same files and the
same script give the same cases, byte for byte.

LOAD: the file's path; the level count of an empty store; the level list; the number of slots; the refusal, 0 for none; its line; the roots;
the store's nodes from number 2 on as `level:then:else`; for up to 8 levels each root's answers, where character k stands for the setting
in which level l is yes if bit l of k is 1; the source, the judge and the reason. rust_cases.py makes it.

ROOM: the file; a store in eight columns: level count, count, the slot lists level, then, else, next, the number of bucket heads, those
that aren't 0 as `bucket:head`; the level list; the length of each scratch list; `short` where a variable or root list is too short, else
`long`; the refusal and its line; the roots; for an accepted file the store afterwards: count, level, then, else, next, heads.

The script works out the links and heads that the nodes of a store have by document 01, and stops where ROOM has others; so the replay,
which works them out from the stored nodes, holds each link and head too.

The files:

    cases.bin       all cases
    falsified.bin   some cases, each with one stored value changed
    cut.bin         a few cases and a last one that isn't whole
    index.tsv       for each of all cases its source and judge: see tests/cases/record.py

All numbers are of 16 bits, lowest byte first. A case starts with 20 of them: the store's level count and count; the lengths of its lists
level, then, else, next and of the bucket heads; the lengths of the level list, of the scratch lists edges and seats (65535 stands for
1,000,000), of the variable lists, of the root lists; how many slots and how many heads are given; then the lengths of the file, of what
is given and of the answer, two numbers each, lower first. The file follows; then what is given: the four slot lists as far as they are
given, the heads, the level list. Then comes the answer: a refusal and its line; or 0, 0, how many roots there are, the store's count,
the roots, the level, then and else of the slots up to the count, each list for itself, and, where they are known, 16 numbers for each
root that hold its answers in their bits, lowest first.
"""
import os
import random
import re
import sys

sys.path.insert(0, os.path.join(os.path.dirname(os.path.abspath(__file__)), "..", "cases"))
from record import DOCUMENT, Record  # noqa: E402

VARS, ROOTS, BUCKETS = 4096, 1024, 256
LINES, ALL = 32768, 65535  # entries of scratch: enough for most files; 65535 stands for 1,000,000
MOST = 12000  # bytes of a file


class Store:
    def __init__(self, levels, count, lists, heads):
        self.levels, self.count, self.lists, self.heads = levels, count, lists, heads


class Case:
    def __init__(self, file, store, levels, edges, seats, variables=VARS, roots=ROOTS):
        self.file, self.store, self.list, self.lent = file, store, levels, (edges, seats, variables, roots)


class Answer:
    def __init__(self, refusal, line, roots=(), nodes=(), tables=()):
        self.refusal, self.line, self.roots, self.nodes, self.tables = refusal, line, list(roots), [list(x) for x in nodes], list(tables)

    def copy(self):
        return Answer(self.refusal, self.line, self.roots, self.nodes, self.tables)


def empty(levels, slots):
    return Store(levels, 1, [[0] * slots for _ in range(4)], [0] * BUCKETS)


def numbers(text):
    return [] if text == "-" else [int(x) for x in text.split(",")]


def pairs(text):
    return [] if text == "-" else [[int(y) for y in x.split(":")] for x in text.split(",")]


def linked(nodes, slots):
    """The links and heads of the nodes from number 2 on, by document 01, 'Store and meaning'."""
    nexts, heads = [0] * slots, [0] * BUCKETS
    for n, (level, then, els) in enumerate(nodes, 2):
        b = (level + 3 * then + 5 * els) % 2 ** 32 % 256
        nexts[n - 1], heads[b] = heads[b], n
    return nexts, heads


def bytes_of(values):
    return b"".join((v % 65536).to_bytes(2, "little") for v in values)


def used(values):
    n = len(values)
    while n and values[n - 1] == 0:
        n -= 1
    return n


def packed(table):
    """Answers as 16 numbers, 16 answers each."""
    bits = [0] * 16
    for k, c in enumerate(table):
        bits[k // 16] |= int(c) << k % 16
    return bits


def answer_bytes(answer):
    if answer.refusal:
        return bytes_of((answer.refusal, answer.line))
    nodes = [[0, 0, 0]] + answer.nodes
    slots = [x[i] for i in range(3) for x in nodes]
    return bytes_of([0, answer.line, len(answer.roots), len(nodes)] + answer.roots + slots + [x for t in answer.tables for x in packed(t)])


def case_bytes(case, answer):
    store = case.store
    slots, heads = max(used(x) for x in store.lists), used(store.heads)
    given = bytes_of([v for x in store.lists for v in (x + [0] * slots)[:slots]] + store.heads[:heads] + case.list)
    stored = answer_bytes(answer)
    head = [store.levels, store.count, *map(len, store.lists), len(store.heads), len(case.list), *case.lent, slots, heads]
    for part in (case.file, given, stored):
        head += [len(part) % 65536, len(part) // 65536]
    return bytes_of(head) + case.file + given + stored


def scratch_for(data):
    """Scratch that is enough for a file, whatever it says of its lines."""
    said = [int(n) for n in re.findall(rb"\.nnodes[ \t]+(\d+)", data)]
    return ALL if any(LINES < n <= 1000000 for n in said) else LINES


def of_load(name):
    with open(name) as f:
        for line in f:
            file, levels, level_list, slots, refusal, at, roots, nodes, tables, *judged = line.rstrip("\n").split("\t")
            with open(file, "rb") as g:
                data = g.read()
            if len(data) > MOST:
                continue
            tables = [] if tables == "-" else tables.split(",")
            yield Case(data, empty(int(levels), int(slots)), numbers(level_list), *[scratch_for(data)] * 2), \
                Answer(int(refusal), int(at), numbers(roots), pairs(nodes), tables), judged


def of_room(name, folder):
    with open(name) as f:
        for k, line in enumerate(f):
            x = line.rstrip("\n").split("\t")
            with open(os.path.join(folder, x[0]), "rb") as g:
                data = g.read()
            if len(data) > MOST:
                continue
            heads = [0] * int(x[7])
            for b, head in pairs(x[8]):
                heads[b] = head
            store = Store(int(x[1]), int(x[2]), [numbers(t) for t in x[3:7]], heads)
            scratch, roots, variables = int(x[10]), ROOTS, VARS
            if x[11] == "short":
                roots, variables = ((ROOTS, VARS - 1), (ROOTS - 1, VARS), (0, VARS), (ROOTS, 0))[k % 4]
            answer = Answer(int(x[12]), int(x[13]), numbers(x[14]))
            if not answer.refusal:
                count, lists = int(x[15]), [numbers(t) for t in x[16:20]]
                answer.nodes = [list(n) for n in zip(*[t[1:count] for t in lists[:3]])]
                nexts, heads = linked(answer.nodes, len(lists[3]))
                if nexts != lists[3] or pairs(x[20]) != [[b, h] for b, h in enumerate(heads) if h]:
                    sys.exit("%s: links or heads differ" % x[0])
            yield Case(data, store, numbers(x[9]), scratch, scratch, variables, roots), answer, ("vectors/" + x[0] + " room", DOCUMENT, "lent parts")


def falsified(rng, answer):
    """The answer with one value changed."""
    other = answer.copy()
    if answer.refusal or rng.random() < 0.1:
        if rng.random() < 0.5 and answer.refusal:
            other.line += rng.choice((1, 2, 255)) if other.line == 0 else rng.choice((-1, 1))
        else:
            other.refusal = rng.choice([v for v in (0, 1, 2, 3, 30, 39, 40, other.refusal + 1) if v != other.refusal])
        return other
    ways = ["line", "root more"] + ["roots"] * 3 * bool(other.roots) + ["nodes", "nodes", "node fewer"] * bool(other.nodes) + ["tables"] * bool(other.tables)
    how = rng.choice(ways)
    if how == "line":
        other.line = 1
    elif how == "root more":
        other.roots.append(1)
        if other.tables:
            other.tables.append("1" * len(other.tables[0]))
    elif how == "roots":
        i = rng.randrange(len(other.roots))
        other.roots[i] = rng.choice((-other.roots[i], other.roots[i] + 1))
    elif how == "nodes":
        i = rng.randrange(len(other.nodes))
        other.nodes[i][rng.randrange(3)] += 1
    elif how == "node fewer":
        other.nodes.pop()
    else:
        i = rng.randrange(len(other.tables))
        k = rng.randrange(len(other.tables[i]))
        other.tables[i] = other.tables[i][:k] + "10"[int(other.tables[i][k])] + other.tables[i][k + 1:]
    return other


def main():
    load, room, folder, outdir = sys.argv[1:]
    rng = random.Random(20261115)
    whole_file, false_file, cut_file, record = [], [], [], Record()
    for name, cases in (("load", of_load(load)), ("room", of_room(room, folder))):
        tally = {}
        for k, (case, answer, judged) in enumerate(cases):
            whole_file.append(case_bytes(case, answer))
            record.add(answer.refusal, *judged, file=case.file)
            tally[answer.refusal] = tally.get(answer.refusal, 0) + 1
            if answer.refusal == 0 or k % 6 == 4:
                false_file.append(case_bytes(case, falsified(rng, answer)))
        cut_file = cut_file or whole_file[:4]
        print(name, sum(tally.values()), " ".join("%d: %d" % x for x in sorted(tally.items())))
    for name, data in (("cases.bin", b"".join(whole_file)), ("falsified.bin", b"".join(false_file)), ("cut.bin", b"".join(cut_file)[:-1])):
        with open(os.path.join(outdir, name), "wb") as f:
            f.write(data)
    record.write(outdir)
    print("cases", len(whole_file), "falsified", len(false_file), "cut", len(cut_file))


main()
