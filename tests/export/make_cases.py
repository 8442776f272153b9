#!/usr/bin/env python3
"""Makes the stored exports, tests/vectors/exports, which tests/firmware replays.

    python3 make_cases.py OUTDIR CASES..

OUTDIR is the folder to write to. CASES are lists of exports, a case a line, columns between tabs, `-` for none: a store in eight columns
(level count, count, the slot lists level, then, else, next, the number of bucket heads, those that aren't 0 as `bucket:head`); the roots;
the variable order; the mode, A or B; the version, 2 or 3; the variables' names and the roots' names, in hexadecimal, `empty` for an empty
name; the diagram's name; the length of the output; the length of each list of marks; the refusal, 0 for none; the bytes written; the
source, the judge and the reason, as tests/cases/record.py has them. Lines inside a level stand in the order of the walk's first meeting, as
document 02 wants them; rust_cases.py brings those of the Rust into that order.

rust_cases.py makes such lists. differences.tsv, beside this script, has the inputs E1 to E7 of docs/DIFFERENCES.md; tests/differences/rust.py
describes its further columns. The same lists give the same cases, byte for byte.

The files:

    cases.bin       all cases
    falsified.bin   some cases, each with its refusal or one byte of its file changed
    cut.bin         a few cases and a last one that isn't whole
    index.tsv       for each of all cases its source and judge

All numbers are of 16 bits, lowest byte first, but for starts and lengths of names, which are of 32. A case starts with 32 numbers: the
store's level count and count; the lengths of its lists level, then, else, next and of the bucket heads; how many roots there are, entries
of the variable order, starts and lengths of the variables' names and of the roots'; the lengths of the marks; 1 for text, 1 for version
3.0; start and length of the diagram's name, and the length of the output, two numbers each, lower first; how many slots and how many heads
are given; the refusal; the lengths of what is given, of the names' bytes and of the file, two numbers each. Then comes what is given: the
four slot lists as far as they are given, the heads, the roots, the order, the starts and lengths; then the names' bytes, and the file.
"""
import os
import random
import sys

sys.path.insert(0, os.path.join(os.path.dirname(os.path.abspath(__file__)), "..", "cases"))
from binary import met  # noqa: E402
from record import Record  # noqa: E402


class Case:
    def __init__(self, line):
        x = line.rstrip("\n").split("\t")
        self.levels, self.count = int(x[0]), int(x[1])
        self.lists = [numbers(t) for t in x[2:6]]
        self.heads = [0] * int(x[6])
        for b, head in pairs(x[7]):
            self.heads[b] = head
        self.roots, self.order = numbers(x[8]), numbers(x[9])
        self.ascii, self.version = int(x[10] == "A"), int(x[11] == "3")
        self.names, self.rootnames = names(x[12]), names(x[13])
        self.dd = b"" if x[14] == "-" else bytes.fromhex(x[14])
        self.out, self.marks = int(x[15]), int(x[16])
        self.refusal = int(x[17])
        self.file = b"" if x[18] == "-" else bytes.fromhex(x[18])
        self.judged = x[19:22]


def numbers(text):
    return [] if text == "-" else [int(v) for v in text.split(",")]


def pairs(text):
    return [] if text == "-" else [[int(v) for v in p.split(":")] for p in text.split(",")]


def names(text):
    return [] if text == "-" else [b"" if v == "empty" else bytes.fromhex(v) for v in text.split(",")]


def bytes_of(values, size=2):
    return b"".join((v % 256 ** size).to_bytes(size, "little") for v in values)


def used(values):
    n = len(values)
    while n and values[n - 1] == 0:
        n -= 1
    return n


def placed(lists):
    """The bytes of names, one after the other, and the places of each list's."""
    data, places = b"", []
    for names in lists:
        starts = []
        for name in names:
            starts.append(len(data) if name else 0)
            data += name
        places.append((starts, [len(name) for name in names]))
    return data, places


def split(value):
    return [value % 65536, value // 65536]


def case_bytes(case, refusal, file):
    slots, heads = max(used(x) for x in case.lists), used(case.heads)
    data, ((starts, lens), (rootstarts, rootlens), (ddstart, ddlen)) = placed([case.names, case.rootnames, [case.dd]])
    given = bytes_of([v for x in case.lists for v in (x + [0] * slots)[:slots]] + case.heads[:heads] + case.roots + case.order)
    given += bytes_of(starts + lens + rootstarts + rootlens, 4)
    head = [case.levels, case.count, *map(len, case.lists), len(case.heads), len(case.roots), len(case.order)]
    head += [len(starts), len(lens), len(rootstarts), len(rootlens), case.marks, case.marks, case.ascii, case.version]
    head += split(ddstart[0]) + split(ddlen[0]) + split(case.out) + [slots, heads, refusal]
    head += split(len(given)) + split(len(data)) + split(len(file))
    return bytes_of(head) + given + data + file


def falsified(rng, case):
    """The answer with one value changed."""
    if case.refusal or rng.random() < 0.1:
        return rng.choice([k for k in (0, 1, 3, 4, 5, 6) if k != case.refusal]), case.file
    at = rng.randrange(len(case.file))
    if rng.random() < 0.2:
        return 0, case.file[:at] + case.file[at + 1:]
    return 0, case.file[:at] + bytes([case.file[at] ^ rng.choice((1, 2, 128))]) + case.file[at + 1:]


def main():
    outdir, lists = sys.argv[1], sys.argv[2:]
    rng = random.Random(20261115)
    whole_file, false_file, record = [], [], Record()
    for name in lists:
        tally = {}
        with open(name) as f:
            for k, line in enumerate(f):
                case = Case(line)
                whole_file.append(case_bytes(case, case.refusal, case.file))
                record.add(case.refusal, *case.judged, file=case.file or None, met=met(case.file))
                tally[case.refusal] = tally.get(case.refusal, 0) + 1
                if k % 3 == 1:
                    false_file.append(case_bytes(case, *falsified(rng, case)))
        print(sum(tally.values()), " ".join("%d: %d" % x for x in sorted(tally.items())))
    cut_file = whole_file[:4]
    for name, data in (("cases.bin", b"".join(whole_file)), ("falsified.bin", b"".join(false_file)), ("cut.bin", b"".join(cut_file)[:-1])):
        with open(os.path.join(outdir, name), "wb") as f:
            f.write(data)
    record.write(outdir)
    print("cases", len(whole_file), "falsified", len(false_file), "cut", len(cut_file))


main()
