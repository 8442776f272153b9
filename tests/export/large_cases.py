#!/usr/bin/env python3
"""Makes the stored exports of large stores, tests/vectors/large, which tests/firmware replays.

    python3 large_cases.py ORACLE OUTDIR

ORACLE is the folder of the compiled Rust, OUTDIR the folder to write to. A store isn't stored but made by a rule, which this script and
tests/firmware/replay_large.c follow; and of the file that the Rust writes from it only the length is stored, and the CRC-32 of each block of
4,096 bytes, the last one perhaps shorter. The files are left in OUTDIR. Document 02 fixes the order of lines inside a level; in the Rust it
follows a hash map. So the Rust is matched up to that order: its lines of one level are brought into the order of first meeting (`in_order`
of lines.py), and the digests are of the file in that form.

The rule. A draw takes the next x = 1664525 x + 1013904223 modulo 2^32, starting from the seed, and draw(n) is (x / 65536) modulo n. Nodes are
made from number 2 on, the first at the deepest level. Before each further node, where it or the node before it is pinned, or else where
draw(width) is 0, the level rises by 1 + draw(gap), and `first` is this node's number: the lowest one of its level. A pinned node may have its
children given. Else these steps are done until then and else differ and there is no such node; after each 20 times in vain the level rises
by 1, and `first` is this node's number:

    kind = draw(8)
    a = the lowest number below `first` that is no node's child yet; where there is none, some(first)
    b = some(first)
    then, else = b, a where kind is below 2, else a, b; where kind is odd, else gets a minus

    some(first) is by draw(4)    0: 1    1: first - 1    2: 1 + draw(first - 1)    3: first - 1 - draw(the smaller of 200 and first - 1)

The roots are the numbers that are no node's child, highest first, with a minus on every second one; then so many more, each 1 + draw(count),
with a minus where draw(2) is 1. Variable v has the level (step v + start) modulo levels. Names are chosen from a list of places in the lent
bytes, which overlap: variable v has place (step v + start) modulo the number of places, root r likewise; a step of 0 stands for no names.

The files:

    cases.bin       all cases
    falsified.bin   some cases, each with one value changed, of what the store is made by or of what is stored of the file
    cut.bin         a few cases and a last one that isn't whole
    index.tsv       for each of all cases its source and judge

All numbers are of 16 bits, lowest byte first, but for places and digests, which are of 32. A case starts with 32 numbers: level count, count,
seed (two numbers, lower first), width, gap, how many more roots; step and start of the variable order; 1 for text, 1 for version 3.0; step
and start of the variables' places and of the roots'; 1 + the diagram's place, or 0 for none; how many pins and places there are; how much
shorter than the export size the output is; the refusal; how many nodes and roots the file has; the length of the file (two numbers), and its
number of blocks; a zero; then the lengths of three parts, two numbers each: the pins (number, then, else; children 0 where they aren't given)
with the places (start, length) after them; the names' bytes; the digests.
"""
import os
import sys
import zlib

sys.path.insert(0, os.path.join(os.path.dirname(os.path.abspath(__file__)), "..", "cases"))
import oracle  # noqa: E402
from binary import met  # noqa: E402
from lines import in_order  # noqa: E402
from record import DOCUMENT, RUST, Record  # noqa: E402

BLOCK = 4096
NODES, ROOTS = 1000000, 1024

# The bytes that names are lent in, and places in them: the same bytes twice, one a part of another, one that ends inside another.
BYTES = "gate-dock.yard_\u00fcber\u2603xT0-1".encode() + b"A" * 255
PLACES = [(0, 4), (0, 9), (5, 4), (0, 14), (10, 4), (3, 3), (15, 5), (15, 2), (17, 3), (12, 8), (0, 4), (20, 3), (20, 8), (23, 1), (26, 2), (0, 28)]
LONG = PLACES + [(28, 255), (27, 255), (200, 83), (282, 1)]


class Draws:
    def __init__(self, seed):
        self.x = seed

    def draw(self, n):
        self.x = (1664525 * self.x + 1013904223) % 2 ** 32
        return self.x // 65536 % n


class Plan:
    """What a store is made by, and the nodes and roots that this gives."""

    def __init__(self, levels, count, seed, width, gap, more, pins=()):
        self.levels, self.count, self.seed, self.width, self.gap, self.more, self.pins = levels, count, seed, width, gap, more, list(pins)
        draws = Draws(seed)
        pinned = {n: (then, els) for n, then, els in pins}
        self.nodes, child, there = [], [False] * (count + 2), set()
        level, first, oldest = levels - 1, 2, 2

        def some():
            way = draws.draw(4)
            if way == 0:
                return 1
            if way == 1:
                return first - 1
            if way == 2:
                return 1 + draws.draw(first - 1)
            return first - 1 - draws.draw(min(200, first - 1))

        for n in range(2, count + 1):
            if n > 2 and (n in pinned or n - 1 in pinned or draws.draw(width) == 0):
                level, first = level - 1 - draws.draw(gap), n
            (then, els), vain = pinned.get(n, (0, 0)), -1
            while then == els or (level, then, els) in there:
                vain += 1
                if vain == 20:
                    level, first, vain = level - 1, n, 0
                kind = draws.draw(8)
                while oldest < first and child[oldest]:
                    oldest += 1
                a = oldest if oldest < first else some()
                b = some()
                then, els = (b, a) if kind < 2 else (a, b)
                if kind % 2 == 1:
                    els = -els
            there.add((level, then, els))
            child[then] = child[abs(els)] = True
            self.nodes.append((level, then, els))
        self.fits = level >= 0
        free = [n for n in range(count, 1, -1) if not child[n]]
        self.roots = [-n if k % 2 == 1 else n for k, n in enumerate(free)]
        for _ in range(more):
            root = 1 + draws.draw(count)
            self.roots.append(-root if draws.draw(2) == 1 else root)
        self.fits = self.fits and len(self.roots) <= ROOTS and count <= NODES

    def file(self):
        """A file of text that holds just this store's nodes, with these roots."""
        every = " ".join(map(str, range(self.levels)))
        lines = [".mode A", ".nnodes %d" % self.count, ".nvars %d" % self.levels, ".nsuppvars %d" % self.levels, ".ids " + every,
                 ".permids " + every, ".nroots %d" % len(self.roots), ".rootids " + " ".join(map(str, self.roots)), ".nodes", "1 T 0 0"]
        lines += ["%d %d %d %d" % ((n,) + node) for n, node in enumerate(self.nodes, 2)]
        return "".join(line + "\n" for line in lines + [".end"]).encode()


class Case:
    """An export from a plan's store. Steps and starts: of the variable order, of the variables' places, of the roots' places."""

    def __init__(self, source, plan, mode, version, order, variables=(0, 0), roots=(0, 0), diagram=0, places=PLACES, short=0):
        self.source, self.plan, self.mode, self.version = source, plan, mode, version
        self.order, self.variables, self.roots, self.diagram, self.places, self.short = order, variables, roots, diagram, places, short
        self.refusal, self.nnodes, self.len, self.digests = 1 if short else 0, 0, 0, []

    def name(self, place):
        start, length = self.places[place % len(self.places)]
        return BYTES[start:start + length].hex()

    def chosen(self):
        """The places that names have."""
        lists = (self.variables, self.plan.levels), (self.roots, len(self.plan.roots))
        places = {(step * i + start) % len(self.places) for (step, start), count in lists if step for i in range(count)}
        return places | ({(self.diagram - 1) % len(self.places)} if self.diagram else set())

    def command(self, path):
        p = self.plan
        order = [(self.order[0] * v + self.order[1]) % p.levels for v in range(p.levels)]
        assert sorted(order) == list(range(p.levels)), "the variable order is no permutation"
        words = ["export", path, "--levels", str(p.levels), "--mode", self.mode, "--version", self.version,
                 "--var-to-level", ",".join(map(str, order))]
        for option, (step, start), count in (("--var-names-hex", self.variables, p.levels), ("--root-names-hex", self.roots, len(p.roots))):
            if step:
                words += [option, ",".join(self.name(step * i + start) for i in range(count))]
        return " ".join(words + (["--dd-hex", self.name(self.diagram - 1)] if self.diagram else []))

    def answer(self, file):
        self.file = file
        if not self.refusal:
            self.nnodes = int(file.partition(b".nnodes ")[2].partition(b"\n")[0])
            self.len, self.digests = len(file), [zlib.crc32(file[at:at + BLOCK]) for at in range(0, len(file), BLOCK)]

    def head(self):
        p = self.plan
        return [p.levels, p.count, p.seed % 65536, p.seed // 65536, p.width, p.gap, p.more, *self.order, int(self.mode == "A"),
                int(self.version == "3"), *self.variables, *self.roots, self.diagram, len(p.pins), len(self.places), self.short, self.refusal,
                self.nnodes, 0 if self.refusal else len(p.roots), self.len % 65536, self.len // 65536, len(self.digests), 0]

    def stored(self, head=None, places=None, digests=None):
        given = bytes_of([v for pin in self.plan.pins for v in pin]) + bytes_of([v for place in places or self.places for v in place], 4)
        parts = [given, BYTES, bytes_of(self.digests if digests is None else digests, 4)]
        lengths = [half for part in parts for half in (len(part) % 65536, len(part) // 65536)]
        return bytes_of((head or self.head()) + lengths) + b"".join(parts)


def bytes_of(values, size=2):
    return b"".join((v % 256 ** size).to_bytes(size, "little") for v in values)


# Numbers of the head that are falsified, with what is added to each: the seed, the width, the gap, the roots, the variable order, mode,
# version, both kinds of places, the diagram's, how many nodes and roots there are, the length.
CHANGED = ((2, 1), (4, 1), (5, 1), (6, 1), (8, 1), (9, 1), (10, 1), (12, 1), (14, 1), (15, 1), (20, 1), (21, -1), (22, 1))


def means_another(case, at, head):
    """Is another file asked for with a head that is changed there?"""
    if at in (12, 14, 15):
        return {12: case.variables[0], 14: case.roots[0], 15: case.diagram}[at] != 0
    if at in (4, 5, 6):
        plan = Plan(head[0], head[1], head[2] + 65536 * head[3], *head[4:7], case.plan.pins)
        return (plan.nodes, plan.roots) != (case.plan.nodes, case.plan.roots)
    return True


def falsified(case, every):
    """The case with one value changed, in all ways or in three: the seed, the length, the last digest."""
    head = case.head()
    for at, by in CHANGED:
        changed = head[:at] + [1 - head[at] if at in (9, 10) else head[at] + by] + head[at + 1:]
        if (every or at in (2, 22)) and means_another(case, at, changed):
            yield case.stored(changed)
    for n, (start, length) in enumerate(case.places):
        if every and length > 1 and n in case.chosen():
            yield case.stored(places=case.places[:n] + [(start, length - 1)] + case.places[n + 1:])
    yield case.stored(digests=case.digests[:-1] + [case.digests[-1] ^ 1])


def made():
    """The cases: a small store with names whose places overlap in many ways, then larger and larger ones."""
    few = Plan(6, 9, 5, 2, 1, 3)
    # Two-group numbers begin at 128: nodes alone at their levels, whose numbers in the file are therefore their own.
    edges = [(127, 0, 0), (128, 0, 0), (129, 0, 0), (254, 127, 1), (255, 128, -127), (256, 128, -129), (257, 129, 128), (258, 129, -128)]
    # With 32,767 nodes a child is written by its number up to 16,383, or by its distance where that is less than its number.
    top = [(16383, 0, 0), (16384, 0, 0), (32766, 16383, -16383), (32767, 16384, -16384)]
    # With more, three-group numbers begin: 16,384, by the number and by the distance.
    over = [(16384, 0, 0), (16385, 0, 0), (23612, 0, 0), (23613, 0, 0), (23614, 0, 0), (23615, 0, 0), (32772, 16384, -16385),
            (39997, 23612, -23613), (39999, 23615, -23614)]
    plans = {"128": Plan(120, 128, 11, 3, 3, 4), "768": Plan(700, 768, 12, 2, 2, 9, edges), "16384": Plan(4096, 16384, 13, 7, 2, 20, edges),
             "20000": Plan(120, 20000, 14, 300, 2, 7), "32767": Plan(4096, 32767, 15, 9, 1, 30, edges + top),
             "40000": Plan(4096, 40000, 16, 12, 1, 30, edges + over)}
    steps = {"128": (7, 3), "768": (11, 5), "16384": (5, 77), "20000": (7, 1), "32767": (4095, 4095), "40000": (3, 1)}
    for mode in "AB":
        for version in "23":
            yield Case("9 nodes, names", few, mode, version, (5, 2), (3, 0), (5, 1), 4)
            yield Case("9 nodes, names", few, mode, version, (1, 0), (1, 16), (1, 12), 17, LONG)
            yield Case("9 nodes, names", few, mode, version, (1, 3), (16, 0), (16, 0), 1)
            yield Case("9 nodes, names", few, mode, version, (1, 3), (0, 0), (1, 0), 0)
            yield Case("9 nodes, output a byte short", few, mode, version, (1, 0), (1, 16), (1, 12), 17, LONG, 1)
    for name, plan in plans.items():
        for n, (mode, version) in enumerate((m, v) for m in "AB" for v in "23"):
            names = (dict(variables=(3, n), roots=(5, n), diagram=n + 1), dict())[n % 3 == 0 and plan.count > 1000]
            yield Case("%s nodes" % name, plan, mode, version, steps[name], **names)


# What the binary files must have between them, so that the cases keep what they are there for. A variable is written with code 0 on the
# terminal's line alone, and never in three groups: there are at most 4,096. Of a child the smaller of its number and its distance is written,
# which has three groups from 16,384 on, in files of more than 32,767 nodes.
WANTED = {"code: %s %s" % (part, code) for part in ("variable", "then", "else") for code in ("terminal", "absolute", "relative", "one before")}
WANTED |= {"group: %s %s of %s" % (part, code, groups) for part in ("variable", "then", "else") for code in ("absolute", "relative")
           for groups in ("one group", "two groups", "three groups or more") if part != "variable" or groups != "three groups or more"}
WANTED |= {"escape: %s in a number" % byte for byte in ("00", "0a", "0d", "1a")} | {"escape: 00 in a code"}
WANTED |= {"value: %s %s %d" % (part, code, n) for part in ("then", "else") for code in ("absolute", "relative") for n in (127, 128, 16383, 16384)}
WANTED |= {"code: else turned over", "code: else not turned over"}


def main():
    folder, outdir = [os.path.abspath(x) for x in sys.argv[1:]]
    cases, record, met_all = list(made()), Record(), set()
    plans = list({id(case.plan): case.plan for case in cases}.values())
    for k, plan in enumerate(plans):
        assert plan.fits, "there are too few levels, or too many nodes or roots"
        with open(os.path.join(outdir, "store%d.dddmp" % k), "wb") as f:
            f.write(plan.file())
    commands = [case.command("store%d.dddmp" % plans.index(case.plan)) for case in cases]
    for k, (case, said) in enumerate(zip(cases, oracle.answers(oracle.program(folder), commands, outdir))):
        assert said[0] == "ok", (case.source, said[0])
        case.answer(in_order(bytes.fromhex(said[1][len("bytes "):])))
        assert case.refusal or case.nnodes == case.plan.count, "not every node is reached"
        with open(os.path.join(outdir, "file%d.dddmp" % k), "wb") as f:
            f.write(case.file)
        if case.refusal:
            record.add(case.refusal, case.source, DOCUMENT, "lent parts")
        else:
            record.add(0, case.source, RUST, file=case.file, met=met(case.file))
            met_all |= met(case.file)
    assert WANTED <= met_all, "the files don't have: %s" % ", ".join(sorted(WANTED - met_all))
    whole = [case.stored() for case in cases]
    false = [x for case in cases if not case.refusal and case.plan.count < 1000 for x in falsified(case, True)]
    false += [x for case in cases if case.plan.count >= 1000 for x in falsified(case, False)]
    for name, data in (("cases.bin", b"".join(whole)), ("falsified.bin", b"".join(false)), ("cut.bin", b"".join(whole[:4])[:-1])):
        with open(os.path.join(outdir, name), "wb") as f:
            f.write(data)
    record.write(outdir)
    print("cases", len(whole), "falsified", len(false), "cut", 4)


main()
