#!/usr/bin/env python3
"""Makes the stored cases of the program `vectors_readers`.

    python3 make_cases.py ORACLE OUTDIR

ORACLE is a program that runs the published Rust on DDDMP files (its commands are `header`, `import` and `batch`), OUTDIR the
folder to write to. The same ORACLE and the same script give the same files, byte for byte.

A case is an input of one reader with its answer. Every answer is worked out by the section 'The document' below, a plain reading
of documents 01 and 02. The Rust has no entry for a reader by itself, so many cases are put into a file that the Rust does read, whose
answer shows what the reader made of the input; where that differs from the document's, the script stops. An edge list with a minus
that doesn't touch its digit has left the match with the Rust by document 02: there the Rust must read it as tests/cases/minus.py says. So:

From the Rust, wherever the input can stand in such a file (no LF, no CR at its end, and for single values no blank at its ends,
since the Rust takes these off before):
- single numbers, by the error texts that name `.nsuppvars` and `.nroots`;
- the first number of a node line: refusals by a node line, values of 32 bits as single numbers, values of 64 bits only from 1 to
  40, by as many node lines, and else only that the number isn't the line's own;
- number lists by `.auxids`, edge lists by `.rootids`; where an edge is 0 only the count and that there is a 0;
- the children of a node line, by that line and as an edge list;
- texts by `.dd`, name lists by `.varnames`: the Rust replaces what isn't UTF-8, so a name that comes back changed is not UTF-8;
- lines and their keys and values, by the error texts that name keys and values;
- escaped bytes and 7-bit numbers, by the variable of a binary node line: up to 2^20 the number itself, above only that the number
  was read and is large;
- the classes blank, digit, line end and white space of a byte.

On the document alone: 19 and the entries that stand before it (lists are compared with the Rust without their limit), 18 (the Rust
accepts such names), 38 (the Rust loses bits there), 17 of a minus that doesn't touch its digit (the Rust lets it wait), what a lent
list holds where it is shorter or longer than the entries, and the positions that a reader gives; the classes of control bytes and the
codes of two bits; the limits; `parse_digits`, `forward` and `backward`, which are steps of other readers; and every input that can't
stand in a file as above.

The files:

    cases.bin       all cases
    falsified.bin   some of each kind, each with an answer that is changed: in one byte, or by a byte more or less at its end
    cut.bin         a few cases and a last one that isn't whole
    index.tsv       for each of all cases its source and judge: see tests/cases/record.py

A case is a byte, its kind, then five numbers of 32 bits, lowest byte first: two arguments, the room of the lent list, the length of
the input, the length of the answer; then the input and the answer. An answer is a byte, the refusal or 0, then numbers of 64 bits,
lowest byte first, a negative one as its two's complement: the values, for a list the count of its entries, none after a refusal;
and then, after a refusal too, all entries of each lent list. Before the call each entry of a lent list is FILL.
"""
import itertools
import os
import random
import re
import subprocess
import sys
import tempfile

sys.path.insert(0, os.path.join(os.path.dirname(os.path.abspath(__file__)), "..", "cases"))
import minus  # noqa: E402
from record import DOCUMENT, RUST, Record  # noqa: E402

FILL = 0x5A5A5A5A
BLANKS = b" \t"
VAR_LIMIT, ROOT_LIMIT, NODE_LIMIT, INPUT_LIMIT = 4096, 1024, 1000000, 67108864
# The longest lent list, input and answer that the program has room for.
MOST_ROOM, MOST_INPUT, MOST_ANSWER = 4100, 65536, 70000

KINDS = [None, "parse_single_u32", "parse_single_u64", "parse_u32", "parse_u64", "parse_digits", "parse_u32_list",
         "parse_edge_list", "parse_children", "is_utf8", "parse_str", "parse_str_list", "forward", "backward", "line_at",
         "field_of", "read_unescape", "decode_7bit", "classes", "from_bits", "limits"]
NUMBER_OF = {name: k for k, name in enumerate(KINDS)}

# The document ------------------------------------------------------------------------------------------------------------------
#
# A reader's answer is (refusal, values): (0, [..]) or (number, []). A list's is (refusal, entries): the entries before the fault.


def single(s, bits_end, foreign=14, at_minus=None):
    """A number below bits_end: '14 a single number has a foreign character or no digit. 15 a number is too large.' The first
    byte at which the number is no number any more decides which. A minus is a foreign byte unless it has a refusal of its own."""
    for end in range(1, len(s) + 1):
        if not s[:end].isdigit():
            return at_minus if at_minus and s[end - 1:end] == b"-" else foreign, []
        if int(s[:end]) >= bits_end:
            return 15, []
    return (0, [int(s)]) if s else (14, [])


def words(s):
    """'Lists skip runs of blanks': each run of other bytes, with its position."""
    return [(m.start(), m.group()) for m in re.finditer(rb"[^ \t]+", s)]


def first(s, bits_end):
    """A line's first number, and the position after it."""
    found = words(s)
    if not found:
        return 14, []
    at, word = found[0]
    refusal, values = single(word, bits_end)
    return refusal, values + [at + len(word)] if refusal == 0 else []


def limited(entries, fault, limit):
    """'Entries of a line are judged left to right, an entry's own fault before the count', 19: the entries before the fault, and
    the fault that comes after them. None: no limit."""
    if limit is not None and len(entries) > limit:
        return 19, entries[:limit]
    return fault, entries


def number_list(s, limit=None):
    """'16 a list has a foreign character', 15 for over 32 bits."""
    entries = []
    for _, word in words(s):
        refusal, values = single(word, 2 ** 32, foreign=16)
        if refusal:
            return limited(entries, refusal, limit)
        entries += values
    return limited(entries, 0, limit)


def edge(word):
    """An entry of an edge list: an optional minus and digits. '17 a second minus, or a minus after a digit', 16, and 15 above
    9223372036854775807 in magnitude. '17 also for a minus without its digit, found where the blank or the end stands': behind this
    word."""
    if word == b"-":
        return 17, []
    refusal, values = single(word.removeprefix(b"-"), 2 ** 63, foreign=16, at_minus=17)
    return refusal, [-v if word.startswith(b"-") else v for v in values]


def edge_list(s, limit=None):
    """Root lists and child lists: 'A minus must touch its digit', so that each word is an entry by itself."""
    entries = []
    for _, word in words(s):
        refusal, values = edge(word)
        if refusal:
            return limited(entries, refusal, limit)
        entries += values
    return limited(entries, 0, limit)


def is_apart(s):
    """Is a minus that doesn't touch its digit the fault of an edge list?"""
    return edge_list(s)[0] == 17 and minus.alone(s)


def children(s, read=edge_list):
    """'The child list is read whole, then counted': the count and the first two, 0 where there are fewer."""
    refusal, entries = read(s)
    if refusal:
        return refusal, []
    return 0, [len(entries)] + (entries + [0, 0])[:2]


# The Unicode Standard, table 3-7: the ranges of the bytes of a character.
TABLE = [
    [(0x00, 0x7f)],
    [(0xc2, 0xdf), (0x80, 0xbf)],
    [(0xe0, 0xe0), (0xa0, 0xbf), (0x80, 0xbf)],
    [(0xe1, 0xec), (0x80, 0xbf), (0x80, 0xbf)],
    [(0xed, 0xed), (0x80, 0x9f), (0x80, 0xbf)],
    [(0xee, 0xef), (0x80, 0xbf), (0x80, 0xbf)],
    [(0xf0, 0xf0), (0x90, 0xbf), (0x80, 0xbf), (0x80, 0xbf)],
    [(0xf1, 0xf3), (0x80, 0xbf), (0x80, 0xbf), (0x80, 0xbf)],
    [(0xf4, 0xf4), (0x80, 0x8f), (0x80, 0xbf), (0x80, 0xbf)],
]


def is_utf8(s):
    at = 0
    while at < len(s):
        row = next((r for r in TABLE if len(s) - at >= len(r)
                    and all(low <= s[at + i] <= high for i, (low, high) in enumerate(r))), None)
        if row is None:
            return False
        at += len(row)
    return True


def text(s, base):
    """'18 a name or `.dd` value isn't UTF-8'; 'an empty name or `.dd` is start 0, length 0'."""
    if not is_utf8(s):
        return 18, []
    return 0, [base, len(s)] if s else [0, 0]


def name_list(s, base=0, limit=None):
    places = []
    for at, word in words(s):
        if not is_utf8(word):
            return limited(places, 18, limit)
        places.append((base + at, len(word)))
    return limited(places, 0, limit)


def line_at(f, at):
    """'A line ends at LF; trailing CR and LF go': where the line ends, and where the next one starts."""
    feed = f.find(b"\n", at)
    stop = len(f) if feed < 0 else feed
    return [at + len(f[at:stop].rstrip(b"\r")), stop if feed < 0 else feed + 1]


def field_of(f, at, end):
    """'The key runs to the first space or tab; the value is trimmed of both': where the key ends, and where the value starts and
    ends. The document gives an empty value no place; here it stands at the line's end."""
    line = f[at:end]
    blank = re.search(rb"[ \t]", line)
    key = blank.start() if blank else len(line)
    value = line[key:].strip(BLANKS)
    start = len(line) - len(line[key:].lstrip(BLANKS))
    return [at + key, at + start, at + start + len(value)]


ESCAPES = {0x00: 0x00, 0x01: 0x0a, 0x02: 0x0d, 0x03: 0x1a}


def byte_at(f, at):
    """'Bytes 00, 0a, 0d, 1a are written 00 00, 00 01, 00 02, 00 03': the byte and the position after it. '30 ends early; 37 bad
    escape.'"""
    if at >= len(f) or f[at:at + 2] == b"\0":
        return 30, []
    if f[at] != 0:
        return 0, [f[at], at + 1]
    return (0, [ESCAPES[f[at + 1]], at + 2]) if f[at + 1] in ESCAPES else (37, [])


def seven_bit(f, at):
    """'Numbers are 7-bit groups, highest first, in bits 7-1; bit 0 means more. 38 comes at the group that passes 64 bits.'"""
    number = 0
    while True:
        refusal, values = byte_at(f, at)
        if refusal:
            return refusal, []
        byte, at = values
        number = number << 7 | byte >> 1
        if number >= 2 ** 64:
            return 38, []
        if byte & 1 == 0:
            return 0, [number, at]


CLASSES = [b"\n", b"\n\r", BLANKS, bytes(set(range(256)) - set(BLANKS))]


def forward(f, start, end, members):
    """The first position of the range at a byte of the class, or its end."""
    return next((i for i in range(start, end) if f[i] in members), end)


def backward(f, start, end, members):
    """The end of the range without the bytes of the class that stand last."""
    return start + len(f[start:end].rstrip(members))


def classes(b):
    """blank, digit, line end, 'after `.end` only space, tab, LF, FF, CR', 'a control byte (00 to 1f, 7f)'"""
    return [b in BLANKS, b in b"0123456789", b in b"\n\r", b in b" \t\n\f\r", b <= 0x1f or b == 0x7f]


# Cases -------------------------------------------------------------------------------------------------------------------------


def laid(entries, room, fill=FILL):
    """What a lent list holds afterwards: the entries as far as it reaches, the rest as it was."""
    return (entries[:room] + [fill] * room)[:room]


class Case:
    def __init__(self, kind, s, a=0, b=0, room=0):
        self.kind, self.s, self.a, self.b, self.room = kind, bytes(s), a, b, room
        assert len(self.s) <= MOST_INPUT and room <= MOST_ROOM
        refusal, values, lent = getattr(self, "of_" + kind)()
        self.answer = bytes([refusal]) + b"".join((v % 2 ** 64).to_bytes(8, "little") for v in values + lent)
        assert len(self.answer) <= MOST_ANSWER
        self.key = (kind, self.s, a, b, room)
        self.seen = False  # whether the Rust was asked

    def of_parse_single_u32(self):
        return *single(self.s, 2 ** 32), []

    def of_parse_single_u64(self):
        return *single(self.s, 2 ** 64), []

    def of_parse_u32(self):
        return *first(self.s, 2 ** 32), []

    def of_parse_u64(self):
        return *first(self.s, 2 ** 64), []

    def of_parse_digits(self):  # the largest number is a and b together, the refusal of a minus is in room
        # a single number, an entry of a list, the magnitude of an edge
        foreign, at_minus = {14: (14, None), 16: (16, None), 17: (16, 17)}[self.room]
        refusal, values = single(self.s, self.a + (self.b << 32) + 1, foreign, at_minus)
        return (refusal, values, []) if self.s else (0, [0], [])

    def of_parse_u32_list(self):  # a: the limit
        refusal, entries = number_list(self.s, self.a)
        return refusal, [] if refusal else [len(entries)], laid(entries, self.room)

    def of_parse_edge_list(self):
        refusal, entries = edge_list(self.s, self.a)
        return refusal, [] if refusal else [len(entries)], laid(entries, self.room)

    def of_parse_children(self):
        return *children(self.s), []

    def of_is_utf8(self):
        return 0, [is_utf8(self.s)], []

    def of_parse_str(self):  # a: the position of the first byte
        assert self.a + len(self.s) < 2 ** 32
        return *text(self.s, self.a), []

    def of_parse_str_list(self):  # a: the position of the first byte; b: the limit
        assert self.a + len(self.s) < 2 ** 32
        refusal, places = name_list(self.s, self.a, self.b)
        lent = laid([p[0] for p in places], self.room) + laid([p[1] for p in places], self.room)
        return refusal, [] if refusal else [len(places)], lent

    def of_forward(self):  # a, b: the range; room: the class
        return 0, [forward(self.s, self.a, self.b, CLASSES[self.room])], []

    def of_backward(self):
        return 0, [backward(self.s, self.a, self.b, CLASSES[self.room])], []

    def of_line_at(self):
        return 0, line_at(self.s, self.a), []

    def of_field_of(self):
        return 0, field_of(self.s, self.a, self.b), []

    def of_read_unescape(self):
        return *byte_at(self.s, self.a), []

    def of_decode_7bit(self):
        return *seven_bit(self.s, self.a), []

    def of_classes(self):
        return 0, [int(c) for c in classes(self.a)], []

    def of_from_bits(self):
        return 0, [self.a % 4], []

    def of_limits(self):
        return 0, [VAR_LIMIT, ROOT_LIMIT, NODE_LIMIT, INPUT_LIMIT], []

    def bytes(self, answer=None):
        answer = self.answer if answer is None else answer
        head = [self.a, self.b, self.room, len(self.s), len(answer)]
        return (bytes([NUMBER_OF[self.kind]]) + b"".join(n.to_bytes(4, "little") for n in head)) + self.s + answer


# Inputs ------------------------------------------------------------------------------------------------------------------------


def short(alphabet, most):
    """All inputs of at most that many of these letters."""
    letters = [bytes([x]) if isinstance(x, int) else x for x in alphabet]
    for n in range(most + 1):
        for t in itertools.product(letters, repeat=n):
            yield b"".join(t)


def some(rng, letters, most):
    return bytes(rng.choice(letters) for _ in range(rng.randrange(most + 1)))


EDGES_OF_WIDTHS = [9, 10, 2 ** 31, 2 ** 32 - 1, 2 ** 32, 2 ** 32 + 1, 2 ** 63 - 1, 2 ** 63, 2 ** 63 + 1,
                   2 ** 64 - 1, 2 ** 64, 2 ** 64 + 1, 10 ** 19, 10 ** 20, 42949672950, 92233720368547758070, 184467440737095516150]


def around(v):
    """A number at the edge of a width: alone, with zeros before it, and with a foreign byte or a minus before it, in it and after
    it, where the byte that decides may stand before or after the one that passes the width."""
    d = b"%d" % v
    yield from (d, b"0" + d, b"0" * 40 + d, d + b"0")
    for x in (b"x", b"-", b"\xff"):
        yield from (x + d, d[:-1] + x + d[-1:], d + x, d + b"5" + x, d + x + b"5")


def of_numbers(rng):
    for s in short(b"07-x \t", 3):
        yield Case("parse_single_u32", s)
        yield Case("parse_single_u64", s)
    for s in itertools.chain(short(b"1x \t", 3), short(b"1 ", 6)):
        yield Case("parse_u32", s)
        yield Case("parse_u64", s)
    for s in short(b"09-x", 3):
        for at_minus in (14, 16, 17):
            yield Case("parse_digits", s, a=9, room=at_minus)
    for v in EDGES_OF_WIDTHS:
        for d in around(v):
            for kind in ("parse_single_u32", "parse_single_u64"):
                yield Case(kind, d)
            for kind in ("parse_u32", "parse_u64"):
                yield Case(kind, d)
            yield Case(rng.choice(["parse_u32", "parse_u64"]), rng.choice([b" ", b"\t \t"]) + d + rng.choice([b"", b" 7", b"\tx"]))
        for most in (9, 10, 99, 255, 2 ** 32 - 1, 2 ** 63 - 1, 2 ** 64 - 1):
            for d in (b"%d" % v, b"00%d" % v, b"%dx" % v, b"%d" % (most + 1), b"%d" % most, b"%dx" % most):
                yield Case("parse_digits", d, a=most % 2 ** 32, b=most >> 32, room=rng.choice([14, 16]))
            for d in (b"%d" % v, b"%dx" % v, b"%d-" % v, b"%dx" % most, b"%d-" % most, b"%d-" % (most + 1)):
                yield Case("parse_digits", d, a=most % 2 ** 32, b=most >> 32, room=17)
            for at_minus in (14, 16):
                yield Case("parse_digits", b"%d-" % most, a=most % 2 ** 32, b=most >> 32, room=at_minus)
        for d in around(v):
            yield Case("parse_digits", d, a=2 ** 32 - 1, b=2 ** 31 - 1, room=17)
    for x in range(256):
        kind = ("parse_single_u32", "parse_single_u64", "parse_u32", "parse_u64")[x % 4]
        yield Case(kind, b"4" + bytes([x]))
        yield Case(kind, bytes([x]) + b"4")
    for _ in range(150):
        s = some(rng, b"0123456789", 24)
        yield Case("parse_single_u32", s[:12])
        yield Case("parse_single_u64", s)
        yield Case("parse_u32", some(rng, b" \t", 3) + s[:11] + some(rng, b" \t7x", 4))
        yield Case("parse_u64", some(rng, b" \t", 3) + s + some(rng, b" \t7x", 4))
    for n in range(1, 41):
        yield Case("parse_u64", b" " * (n % 3) + b"%d" % n + b"\t0 1 1" * (n % 2))


def spread(rng, entries):
    """The entries with blanks between them, at least one, and perhaps before and after."""
    s = some(rng, BLANKS, 2)
    for e in entries:
        s += e + rng.choice([b" ", b"\t", b"  ", b" \t "])
    return s if rng.randrange(2) else s.rstrip(BLANKS)


def at_limits(kind, entry, long_limits, also=()):
    """Lists of one entry less than a limit, of just as many and of more, in lists lent shorter and longer; with a fault in the
    surplus entry, which comes before 19, and with one in a later entry, which 19 comes before."""
    def case(s, limit, room):
        return Case(kind, s, b=limit, a=21, room=room) if kind == "parse_str_list" else Case(kind, s, a=limit, room=room)
    faults = (b"x", b"4x", b"-", b"99999999999999999999") if kind != "parse_str_list" else (b"\xff", b"a\x80", b"\xc3")
    for limit in (0, 1, 3):
        for n in range(limit + 3):
            s = b" ".join(entry(i) for i in range(n))
            for room in {0, 1, 2, n, n + 2}:
                yield case(s, limit, room)
            for fault in faults:
                yield case((s + b" " + fault).strip(), limit, 2)
                yield case((s + b" " + fault + b" " + entry(5)).strip(), limit, n)
                yield case((fault + b" " + s).strip(), limit, 2)
    for limit in long_limits:
        for n, room in ((limit - 1, 2), (limit, 2), (limit + 1, limit + 1)):
            yield case(b" ".join(entry(i) for i in range(n)), limit, room)
        s = b"\t".join(entry(i) for i in range(limit))
        for tail in also:
            yield case(s + tail, limit, 1)


def of_lists(rng):
    kind = "parse_u32_list"
    for i, s in enumerate(short(b"4 x", 5)):
        yield Case(kind, s, a=(4, 2, 1)[i % 3], room=(4, 2, 1, 0)[i % 4])
    for s in short(b"0\t-", 3):
        yield Case(kind, s, a=3, room=3)
    for v in EDGES_OF_WIDTHS:
        for d in around(v):
            yield Case(kind, rng.choice([b"", b"3 ", b"\t0 7 "]) + d + rng.choice([b"", b" 8", b" x"]), a=5, room=4)
    for x in range(256):
        yield Case(kind, b"4" + bytes([x]) + b"2", a=3, room=3)
    yield from at_limits(kind, lambda i: b"%d" % (2 ** 32 - 1 if i % 777 == 776 else i % 10), (VAR_LIMIT, ROOT_LIMIT),
                         (b" x", b" 7 x", b"x", b" 4294967296"))
    for _ in range(150):
        entries = [b"%d" % rng.choice([rng.randrange(10), rng.randrange(2 ** 32), 2 ** 32 - 1]) for _ in range(rng.randrange(12))]
        yield Case(kind, spread(rng, entries), a=rng.choice([3, 8, 20]), room=rng.randrange(14))


MINUSES = [b"- 5 7", b"3 -", b"3-", b"--5", b"-", b"-0", b"5 -6", b"-\t5\t-\t7", b"- - 5", b"-5-6", b"-5 - 6",
           b"-x", b"- x", b"-5x", b"- 5 -", b"-\t", b" -", b"\t-\t", b"0 -0 0", b"-00", b"- 0", b"5  -6", b"5\t-6\t", b"3 --", b"3 - -",
           b"3 -x", b"-5 7-", b"1 2 3-", b"+5", b"- +5", b"5 -6 7", b"-1 -2 -3", b"-1-", b"- 1 - 2 - 3 -",
           b"3\t-", b"3 -\t", b"3 - 4", b"3 -\t4", b"-\t4", b"-x -", b"x -", b"- 3-", b"3- -", b"--  -", b"-\r", b"-\r1", b"-\r 1", b"- \r",
           b"3 -\r4", b"-\x0b5", b"-\x005", b"9223372036854775808 -", b"- 9223372036854775808", b"-9223372036854775808 -",
           b"-9223372036854775807 -", b"-9223372036854775807-", b"1 1 -", b"0 0 -", b"1 -1\t-\t"]


def of_edges(rng):
    kind = "parse_edge_list"
    for i, s in enumerate(short(b"5- x", 4)):
        yield Case(kind, s, a=(4, 1, 2)[i % 3], room=(2, 4, 1, 0)[i % 4])
        yield Case("parse_children", s)
    for i, s in enumerate(short(b"5- ", 5)):
        yield Case(kind, s, a=(4, 3, 1)[i % 3], room=(3, 1)[i % 2])
    for s in MINUSES:
        yield Case("parse_children", s)
        for limit in (0, 1, 2, ROOT_LIMIT):
            yield Case(kind, s, a=limit, room=3)
    for v in EDGES_OF_WIDTHS:
        for d in around(v):
            s = rng.choice([b"", b"-", b"- ", b"3 ", b"\t-8 7 -"]) + d + rng.choice([b"", b" 8", b" x"])
            yield Case(kind, s, a=5, room=4)
            yield Case("parse_children", s)
        for sign in (b"", b"-", b"-\t"):
            yield Case(kind, sign + b"%d" % v, a=1, room=1)
            yield Case("parse_children", b"%s%d 0" % (sign, v))
            yield Case("parse_children", b"-1 %s%d" % (sign, v))
    for x in range(256):
        yield Case(kind, b"-4" + bytes([x]) + b"2", a=3, room=3)
        yield Case("parse_children", b"4 -" + bytes([x]) + b"2")
    yield from at_limits(kind, lambda i: b"%d" % ((-1) ** i * (2 ** 63 - 1 if i % 77 == 76 else i % 9 + 1)), (ROOT_LIMIT,),
                         (b" x", b" 7 x", b"x", b"-", b" -", b" - x", b" --", b" 9223372036854775808", b" -7", b" -7 -7-",
                          b"\t-", b" - 7", b"\t-\t7", b" 7 -", b" -7 -", b" -7 - 7", b" -x -", b" 9223372036854775808 -"))
    for _ in range(150):
        entries = [rng.choice([b"", b"-", b"- "]) + b"%d" % rng.choice([rng.randrange(10), rng.randrange(2 ** 63), 2 ** 63 - 1])
                   for _ in range(rng.randrange(9))]
        yield Case(kind, spread(rng, entries), a=rng.choice([3, 8, 20]), room=rng.randrange(10))
        yield Case("parse_children", spread(rng, entries[:4]))
    for n in (0, 1, 2, 3, 1024, 1025, 5000):  # 'child lists have no 19'
        yield Case("parse_children", b" -7" * n)
        yield Case("parse_children", b" -7" * n + b" -")
    other = random.Random(3)
    for _ in range(150):  # each minus touches its digit, but perhaps the last
        entries = [b"%d" % (other.choice([1, -1]) * other.choice([other.randrange(10), other.randrange(2 ** 63), 2 ** 63 - 1]))
                   for _ in range(other.randrange(9))] + [b"-"] * (other.randrange(5) == 0)
        yield Case(kind, spread(other, entries), a=other.choice([3, 8, 20]), room=other.randrange(10))
        yield Case("parse_children", spread(other, entries[-4:]))


def encoded(c, n):
    """A number in the form of an n-byte character, whether or not that is allowed."""
    if n == 1:
        return bytes([c])
    tail = [0x80 | c >> 6 * i & 0x3f for i in range(n - 1)]
    return bytes([(0x00, 0x00, 0xc0, 0xe0, 0xf0)[n] | c >> 6 * (n - 1)] + tail[::-1])


CHARACTERS = [0x00, 0x01, 0x20, 0x2f, 0x7f, 0x80, 0xff, 0x7ff, 0x800, 0xfff, 0x1000, 0xcfff, 0xd000, 0xd7ff, 0xd800,
              0xdbff, 0xdc00, 0xdfff, 0xe000, 0xfeff, 0xfffd, 0xfffe, 0xffff, 0x10000, 0x3ffff, 0x40000, 0xfffff, 0x100000,
              0x10ffff, 0x110000, 0x13ffff, 0x140000, 0x1fffff]


def texts(rng):
    """Every first byte and every border of table 3-7: overlong forms, surrogates, above U+10FFFF, cut off."""
    for x in range(256):
        yield bytes([x])
    borders = bytes.fromhex("00 61 7f 80 8f 90 9f a0 bf c0 c1 c2 df e0 ec ed ee f0 f3 f4 f5 ff")
    for t in itertools.product(borders, repeat=2):
        yield bytes(t)
    for t in itertools.product(*map(bytes.fromhex, ("c2 e0 e1 ec ed ee ef", "7f 80 8f 90 9f a0 bf c0", "61 7f 80 bf c0"))):
        yield bytes(t)
    for t in itertools.product(*map(bytes.fromhex, ("f0 f1 f3 f4 f5", "7f 80 8f 90 bf c0", "7f 80 bf c0", "7f 80 bf c0"))):
        yield bytes(t)
    for c in CHARACTERS:
        for n in range(1, 5):
            if c < (0, 0x80, 0x800, 0x10000, 0x200000)[n]:
                whole = encoded(c, n)
                yield from (whole, whole + b"a", b"a" + whole, whole + whole)
                yield from (whole[:k] for k in range(n))
                yield from (whole[:k] + b"a" for k in range(n))
    for _ in range(150):
        good = b"".join(encoded(c, 1 + (c > 0x7f) + (c > 0x7ff) + (c > 0xffff))
                        for c in (rng.choice([rng.randrange(0x80), rng.randrange(0x800), rng.randrange(0xd800),
                                              rng.randrange(0xe000, 0x110000)]) for _ in range(rng.randrange(1, 8))))
        yield good
        at = rng.randrange(len(good))
        yield good[:at] + bytes([rng.randrange(256)]) + good[at + 1:]


def of_texts(rng):
    for i, s in enumerate(texts(rng)):
        yield Case("is_utf8", s)
        if i % 4 == 0:
            yield Case("parse_str", s, a=(0, 5, 65536, 2 ** 32 - 1 - len(s))[i // 4 % 4])
    for s in short([b"a", b" ", b"\xc3", b"\xa9"], 4):
        yield Case("parse_str", s, a=9)
        yield Case("parse_str_list", s, a=9, b=2, room=2)
    for n in (255, 256, 9000):
        yield Case("parse_str", b"\xc3\xa9" * (n // 2) + b"n" * (n % 2), a=n)
        yield Case("is_utf8", b"n" * n + b"\xe2\x82")
        yield Case("parse_str_list", b"n" * n + b" \xe2\x82\xac", a=n, b=4, room=3)
    kind = "parse_str_list"
    for s in short([b"a", b"\xe2\x82\xac", b" ", b"\t", b"\xff"], 3):
        yield Case(kind, s, a=len(s) * 100, b=1, room=3)
        yield Case(kind, s, a=0, b=3, room=1)
    for c in CHARACTERS:
        for n in range(1, 5):
            if c < (0, 0x80, 0x800, 0x10000, 0x200000)[n]:
                yield Case(kind, b"a " + encoded(c, n) + b" b", a=77, b=3, room=3)
                yield Case(kind, b"a " + encoded(c, n)[:-1] + b" b", a=77, b=3, room=3)
    for x in range(256):
        yield Case(kind, b"a" + bytes([x]) + b"b", a=1000, b=3, room=3)
    yield from at_limits(kind, lambda i: b"name"[:i % 4 + 1], (VAR_LIMIT, ROOT_LIMIT), (b" \xff", b" z \xff", b"\xff"))
    for base in (0, 1, 2 ** 31, 2 ** 32 - 10):
        yield Case(kind, b" ab  c\td ", a=base, b=5, room=4)
    for _ in range(150):
        # the last of these is not UTF-8, and comes more rarely than the others
        names = [rng.choice([b"x%d" % rng.randrange(99), b"\xc3\xa9\xc3\xa8", b"\xf0\x9f\x98\x80" * rng.randrange(1, 3), b"-", b"\r",
                             b"\x7f", b"a\xc3"][:6 + (rng.randrange(5) == 0)]) for _ in range(rng.randrange(9))]
        yield Case(kind, spread(rng, names), a=rng.randrange(10 ** 6), b=rng.choice([3, 8, 20]), room=rng.randrange(10))


def of_lines(rng):
    for s in short(b"a\r\n ", 4):
        for at in range(len(s) + 1) if len(s) < 4 else (len(s) // 2,):
            yield Case("line_at", s, a=at)
    for s in [b"ab\r\r\r\ncd\r\n", b"\r\r\r\r", b"\r\na", b"\n\n\n", b"a\rb\r\n\r", b"\ra\r",
              b"key value \r\r\n.next\r", b" \t \r\n", b"a\n\r\nb", b"a\r \nb"]:
        for at in range(len(s) + 1):
            yield Case("line_at", s, a=at)
    for s in short(b"k \t", 4):
        yield Case("field_of", s, a=0, b=len(s))
    for i, s in enumerate(short(b"k \t\n", 4)):
        at = i % (len(s) + 1)
        yield Case("field_of", s, a=at, b=at + i // 5 % (len(s) - at + 1))
    for s in [b".dd  a b\t", b".nvars\t4", b".nodes", b" .dd x", b"\t", b".ver   DDDMP-2.0   ",
              b".dd\t \t", b"k\rv w\rx", b"..\tx-y \t z"]:
        yield Case("field_of", s, a=0, b=len(s))
        yield Case("field_of", b"xx\n" + s + b"\nyy z", a=3, b=3 + len(s))
    for kind in ("forward", "backward"):
        for i, s in enumerate(short(b"a\r\n ", 3)):
            for members in range(4):
                yield Case(kind, s, a=0, b=len(s), room=members)
                if s and (i + members) % 3 == 0:
                    at = rng.randrange(len(s) + 1)
                    yield Case(kind, s, a=at, b=rng.randrange(at, len(s) + 1), room=members)
        for x in range(256):
            yield Case(kind, bytes([x, 0x61, x]), a=0, b=3, room=x % 4)
    for _ in range(150):
        s = some(rng, b"ab.\r\r\n\n \t", 30)
        at = rng.randrange(len(s) + 1)
        end = rng.randrange(at, len(s) + 1)
        yield Case("line_at", s, a=at)
        yield Case("field_of", s, a=at, b=end)
        yield Case(rng.choice(["forward", "backward"]), s, a=at, b=end, room=rng.randrange(4))
    for s in (b"a" * 9000 + b"\r\n", b"\r" * 5000 + b"\n", b"k" * 2000 + b" " * 2000 + b"v" + b"\t" * 2000):
        yield Case("line_at", s, a=17)
        yield Case("field_of", s, a=5, b=len(s))


def escaped(s):
    back = {v: k for k, v in ESCAPES.items()}
    return b"".join(bytes([0, back[x]]) if x in back else bytes([x]) for x in s)


def groups(v, n=1):
    """A number in at least n groups, before bytes are escaped."""
    while v >> 7 * n:
        n += 1
    return bytes([(v >> 7 * i & 127) << 1 | (i > 0) for i in range(n - 1, -1, -1)])


def of_binary(rng):
    for x in range(256):
        yield Case("read_unescape", bytes([x]))
        yield Case("read_unescape", bytes([0, x]))
        yield Case("read_unescape", bytes([7, x, 0, 9]), a=1)
        yield Case("decode_7bit", bytes([x]))
        yield Case("decode_7bit", bytes([3, 0, x, 4]))
    for s in short(bytes([0, 1, 3, 4, 0x1a]), 3):
        yield Case("read_unescape", s, a=len(s) // 2)
    for s in short(bytes([0, 1, 2, 3, 4, 0x0b, 0xff]), 3):
        yield Case("decode_7bit", s)
    for at in (0, 1, 2, 3, 4, 9, 2 ** 32 - 1):
        yield Case("read_unescape", b"\x05\x00\x02", a=at)
        yield Case("decode_7bit", b"\x05\x00\x02", a=at)
    for v in sorted({2 ** k + d for k in range(1, 65) for d in (-1, 0, 1)} | {5, 13, 26, 127, 128, 768, 2 ** 57 * 3 - 1}):
        for n in (1, 10, 11):
            yield Case("decode_7bit", escaped(groups(v, n)))
        yield Case("decode_7bit", b"ab" + escaped(groups(v)) + b"\x00\x00.end", a=2)
        yield Case("decode_7bit", escaped(groups(v))[:-1])
    # at the group that passes 64 bits: its own 30 or 37 comes first, a later one is not seen any more
    wide = escaped(groups(2 ** 57))[:-1]
    for v in (2 ** 57 - 1, 2 ** 57, 2 ** 58):
        more = escaped(bytes(x | 1 for x in groups(v)))
        for tail in (b"", b"\x00", b"\x00\x04", b"\x00\xff", b"\x01\x00\x04", b"\x00\x00\x00\x04", b"\x03\x00",
                     b"\x02", b"\x03", b"\xff\xfe", b"\x00\x01", b"\x00\x02\x02"):
            yield Case("decode_7bit", more + tail)
    for s in (b"\x01\x01\x02", b"\x03" + b"\x01" * 9 + b"\x02", b"\x00\x01", b"\xfe", b"\x03\x00\x00",
              b"\x00\x02\x00\x00", b"\x00\x03", b"\x01" * 40 + b"\x02", b"\x01" * 200 + escaped(groups(2 ** 64 - 1)),
              b"\x01" * 200 + escaped(groups(2 ** 64)), b"\x01" * 9000, b"\x01" * 9000 + b"\x08", b"\x0a", b"\x0b\x0a", b"\x0d\x1a", wide):
        yield Case("decode_7bit", s)
    for _ in range(150):
        number = groups(rng.randrange(2 ** rng.randrange(1, 66)), rng.randrange(1, 12))
        yield Case("decode_7bit", escaped(number) + some(rng, b"\x00\x01\x02", 2))
        s = some(rng, bytes([0, 0, 1, 2, 3, 5, 0xff, 0x81]), 14)
        yield Case("decode_7bit", s, a=rng.randrange(len(s) + 1))


def of_codes(_):
    for x in range(256):
        yield Case("classes", b"", a=x)
        yield Case("from_bits", b"", a=x)
    yield Case("limits", b"")


def all_cases():
    rng = random.Random(20240117)
    found = {}
    for make in (of_numbers, of_lists, of_edges, of_texts, of_lines, of_binary, of_codes):
        for c in make(rng):
            found.setdefault(c.key, c)
    return sorted(found.values(), key=lambda c: NUMBER_OF[c.kind])


# The Rust ----------------------------------------------------------------------------------------------------------------------


class Rust:
    """What the Rust said of a file: `ok` with its lines, or the text of an error. Texts come quoted, bytes as \\xNN."""

    def __init__(self, lines):
        self.lines = lines
        self.ok = lines[0] == "ok"
        self.error = None
        if lines[0].startswith("err "):
            self.error = unquoted(lines[0].split(" ", 3)[3])[0]
        self.said = dict((line + " ").split(" ", 1) for line in lines[1:])

    def refusal(self):
        """The number of document 01 for the error of a reader; None where no reader gave it."""
        for pattern, number in ((rb"unexpected char '.*' in space-separated list", 16),
                                (rb"unexpected char '.*' in integer", 14), (rb"expected an integer", 14),
                                (rb"integer .*too large \(line", 15), (rb"expected a digit after '-'", 17),
                                (rb"expected a space before '-'", 17), (rb"invalid escape sequence", 37),
                                (rb"unexpected end of file", 30)):
            if self.error is not None and re.match(pattern, self.error, re.S):
                return number
        return None

    def numbers(self, key):
        return [int(w) for w in self.said[key].split()]

    def texts(self, key):
        return [] if self.said[key].strip() == "none" else unquoted(self.said[key])


def unquoted(line):
    return [re.sub(rb"\\x([0-9a-f]{2})", lambda m: bytes([int(m.group(1), 16)]), t)
            for t in re.findall(rb'"([^"]*)"', line.encode("ascii"))]


def in_line(s):
    """Whether an input can end a line of a file as it is."""
    return b"\n" not in s and not s.endswith(b"\r")


def in_value(s):
    """Whether an input can be the value of a header's line as it is."""
    return in_line(s) and s == s.strip(BLANKS)


def shown(error, pattern):
    m = re.fullmatch(pattern, error or b"", re.S)
    return m and m.group(1)


def version(r):
    """The value of a first line `.ver`, which the Rust names where it is no version."""
    return shown(r.error, rb"unsupported version '(.*)' \(line 1\)")


def key_of(r, line):
    """The key of a line, which the Rust names where it knows none like it."""
    return shown(r.error, rb"unknown key '(.*)' \(line %d\)" % line)


def single_by(key, pattern, s, bits_end):
    """The question whether a header's number reads as the document says: the file, and the check of its answer."""
    refusal, values = single(s, bits_end)

    def check(r):
        if refusal:
            return r.refusal() == refusal
        if values == [0]:
            return r.ok
        return shown(r.error, pattern) == b"%d" % values[0]
    return "header", key + b" " + s + b"\n.nodes\n", check


def single_32(s):
    return single_by(b".nsuppvars", rb"\.nsuppvars \((\d+)\) must not be greater than \.nvars \(0\)", s, 2 ** 32)


def single_64(s):
    return single_by(b".nroots", rb"number of roots in \.rootids entry \(0\) does not match \.nroots \((\d+)\)", s, 2 ** 64)


def text_node(number, line, check):
    """A file of text nodes, the last of them being `line`."""
    before = b"".join(b"%d T 0 0\n" % k for k in range(1, number))
    return "import 0 --levels-list ,", b".nnodes %d\n.nodes\n" % number + before + line + b"\n.end\n", check


def read_by_rust(s):
    """What the Rust must make of an edge list: what the documents say, unless it has a minus that doesn't touch its digit."""
    if not is_apart(s):
        return edge_list(s)
    entries, refusal = minus.waiting(s)
    return refusal, entries


def edges_by_roots(s):
    refusal, entries = read_by_rust(s)

    def check(r):
        if refusal:
            return r.refusal() == refusal
        if 0 in entries:
            return r.error == b".rootids must not be 0"
        return r.ok and r.numbers("rootids") == entries
    count = 0 if refusal else len(entries)
    return "header", b".nnodes 18446744073709551615\n.rootids " + s + b"\n.nroots %d\n.nodes\n" % count, check


def seven_bit_by_variable(s, number):
    """Bytes that are a whole number: the variable of a binary node line. A relative one counts down from the count of levels, so
    with number + 1 levels only this number names position 1."""
    head = b".mode B\n.nvars 2\n.nsuppvars 2\n.ids 0 1\n.permids 0 1\n.nnodes 2\n.nodes\n\0\0"
    if number < 2:
        return ("import 2 --levels-list 0,1 --store --no-table", head + b"\x24" + s + b".end",
                lambda r: r.ok and r.said.get("node", "").startswith("2 level %d " % number))
    if number <= 2 ** 20:
        return ("import %d --levels-list 0,%d --store --no-table" % (number + 1, number), head + b"\x44" + s + b".end",
                lambda r: r.ok and r.said.get("node", "").startswith("2 level %d " % number))
    return "import 2 --levels-list 0,1", head + b"\x24" + s + b".end", lambda r: r.error == b"variable ID out of range"


def seven_bit_refused(s, refusal):
    head = b".mode B\n.nvars 2\n.nsuppvars 2\n.ids 0 1\n.permids 0 1\n.nnodes 2\n.nodes\n\0\0\x24"
    return "import 2 --levels-list 0,1", head + s, lambda r: r.refusal() == refusal


class Asked:
    """For each kind the questions that show what the Rust makes of a case; none where no file shows it."""

    def parse_single_u32(self, c):
        return [single_32(c.s)] if in_value(c.s) else []

    def parse_single_u64(self, c):
        return [single_64(c.s)] if in_value(c.s) else []

    def parse_u32(self, c):
        if not in_value(c.s) or c.s == b"" or re.search(rb"[ \t]", c.s):
            return []
        refusal = first(c.s, 2 ** 32)[0]
        return [single_32(c.s), text_node(1, b"1 " + c.s + b" 1 1", lambda r: r.refusal() == refusal if refusal
                                          else r.error == b"variable out of range (line 3)")]

    def parse_u64(self, c):
        if not in_line(c.s):
            return []
        refusal, values = first(c.s, 2 ** 64)
        if refusal:
            return [text_node(1, c.s, lambda r: r.refusal() == refusal)]
        number, end = values
        if 1 <= number <= 40:
            return [text_node(number, c.s[:end] + b" T 0 0", lambda r: r.ok)]
        return [text_node(1, c.s, lambda r: r.error == b"expected node ID 1 on line 3")]

    def parse_u32_list(self, c):
        if not in_line(c.s):
            return []
        refusal, entries = number_list(c.s)
        ids = b" ".join(b"%d" % i for i in range(len(entries)))
        head = b".nvars %d\n.nsuppvars %d\n.ids %s\n.permids %s\n" % (len(entries), len(entries), ids, ids)
        return [("header", head + b".auxids " + c.s + b"\n.nodes\n",
                 lambda r: r.refusal() == refusal if refusal else r.ok and r.numbers("auxiliary_var_ids") == entries)]

    def parse_edge_list(self, c):
        return [edges_by_roots(c.s)] if in_line(c.s) else []

    def parse_children(self, c):
        if not in_line(c.s):
            return []
        refusal, values = children(c.s, read_by_rust)

        def check(r):
            if refusal:
                return r.refusal() == refusal
            if values[0] != 2:
                return r.error == b"expected 2 children, got %d (line 3)" % values[0]
            if 0 in values[1:]:
                return r.ok
            return r.error == b"unexpected char 'T' in integer (line 3)"
        return [text_node(1, b"1 T " + c.s, check), edges_by_roots(c.s)]

    def is_utf8(self, c):
        if not in_value(c.s):
            return []
        return [("header", b".dd " + c.s + b"\n.nodes\n",
                 lambda r: r.ok and (b"".join(r.texts("diagram_name")) == c.s) == is_utf8(c.s))]

    parse_str = is_utf8

    def parse_str_list(self, c):
        if not in_line(c.s):
            return []
        names = [w for _, w in words(c.s)]
        refusal, places = name_list(c.s)

        def check(r):
            seen = r.texts("var_names") if r.ok else []
            whole = next((i for i, (n, m) in enumerate(zip(names, seen)) if n != m), len(names))
            return r.ok and len(seen) == len(names) and whole == len(places) and (whole == len(names)) == (refusal == 0)
        return [("header", b".nvars %d\n.varnames " % len(names) + c.s + b"\n.nodes\n", check)]

    def line_at(self, c):
        end, after = line_at(c.s, c.a)
        rest, later = c.s[c.a:], c.s[after:]
        key = re.match(rb"[^ \t]*", later[:line_at(later, 0)[0]]).group()
        if b".ver" in rest or b".dd" in rest or len(rest) > 5000:
            return []
        return [("header", b".ver " + rest, lambda r: version(r) == c.s[c.a:end].strip(BLANKS)),
                ("header", b".dd " + rest, lambda r: r.refusal() == 30 if later == b"" else key_of(r, 2) == key)]

    def field_of(self, c):
        key, start, end = field_of(c.s, c.a, c.b)
        line = c.s[c.a:c.b]
        if not in_line(line) or line.startswith((b".nodes", b".ver", b".dd", b".nvars")):
            return []
        return [("header", line + b"\n", lambda r: key_of(r, 1) == c.s[c.a:key]),
                ("header", b".ver" + c.s[key:c.b] + b"\n", lambda r: version(r) == c.s[start:end])]

    def read_unescape(self, c):
        refusal, values = byte_at(c.s, c.a)
        if refusal:
            return [seven_bit_refused(c.s[c.a:], refusal)]
        byte, end = values
        if byte & 1:
            return [seven_bit_by_variable(c.s[c.a:end] + b"\x02", (byte >> 1) * 128 + 1)]
        return [seven_bit_by_variable(c.s[c.a:end], byte >> 1)]

    def decode_7bit(self, c):
        refusal, values = seven_bit(c.s, c.a)
        if refusal == 38:
            return []
        if refusal:
            # Where digits of over 64 bits stand before the fault, the document says 38 and is not compared; here they don't.
            return [seven_bit_refused(c.s[c.a:], refusal)]
        return [seven_bit_by_variable(c.s[c.a:values[1]], values[0])]

    def classes(self, c):
        x = bytes([c.a])
        blank, digit, line_end, white, _ = classes(c.a)
        return [("header", b".dd" + x + b"x\n.nodes\n", lambda r: (r.ok and r.texts("diagram_name") == [b"x"]) == blank),
                ("header", b".nsuppvars 1" + x + b"\n.nodes\n",
                 lambda r: (shown(r.error, rb"\.nsuppvars \((\d\d)\) must not .*") is not None) == digit),
                # a blank at the value's end goes as well
                ("header", b".ver x" + x + b"\n", lambda r: (version(r) == b"x") == (line_end or blank)),
                ("import 0 --levels-list ,", b".nodes\n.end" + x, lambda r: r.ok == white)]


def ask(oracle, cases):
    """Puts every question to the Rust, and stops where an answer isn't the document's."""
    asked, questions = Asked(), {}
    for c in cases:
        for command, data, check in getattr(asked, c.kind, lambda c: [])(c):
            questions.setdefault((command, data), []).append((c, check))
            c.seen = True
    with tempfile.TemporaryDirectory() as folder:
        with open(os.path.join(folder, "list"), "w", encoding="ascii") as f:
            for i, (command, data) in enumerate(questions):
                with open(os.path.join(folder, str(i)), "wb") as g:
                    g.write(data)
                word, _, options = command.partition(" ")
                f.write(("%s %d %s" % (word, i, options)).strip() + "\n")
        run = subprocess.run([os.path.abspath(oracle), "batch", "list"], cwd=folder, stdout=subprocess.PIPE, check=True)
    answers, lines = [], run.stdout.decode("ascii").splitlines()
    for line in lines:
        if re.match(r"case \d+ (header|import) ", line):
            answers.append([])
        else:
            answers[-1].append(line)
    assert len(answers) == len(questions), (len(answers), len(questions))
    wrong = 0
    for ((command, data), those), lines in zip(questions.items(), answers):
        for c, check in those:
            if not check(Rust(lines)):
                wrong += 1
                print("%s %r %r: the document %r, the Rust %r" % (c.kind, c.s[:60], (c.a, c.b, c.room), c.answer[:40], lines[:1]))
                print("    %s %r" % (command, data[:200]))
    if wrong:
        sys.exit("%d answers of the Rust aren't the document's" % wrong)
    return len(questions)


def judge(c):
    """18, 19 and 38 are document 01's own even where a file shows what else the Rust reads, and so is document 02's 17."""
    added = {18: "not UTF-8", 19: "over a limit", 38: "over 64 bits"}.get(c.answer[0])
    if c.kind in ("parse_edge_list", "parse_children") and c.answer[0] == 17 and is_apart(c.s):
        added = "minus alone"
    return (DOCUMENT, added) if added else (RUST,) if c.seen else (DOCUMENT, "no file shows it")


# The files ---------------------------------------------------------------------------------------------------------------------


def falsified(cases):
    """Of each kind some cases, spread over it: the answer changed in its first byte, in its last one, in one between them, and by a
    byte more or less."""
    rng = random.Random(7)
    for kind in KINDS[1:]:
        those = [c for c in cases if c.kind == kind]
        small = [c for c in those if len(c.s) + len(c.answer) < 300]
        chosen = [small[i * len(small) // 8] for i in range(8)] if len(small) > 8 else small
        # in a list of a thousand entries the last one
        chosen += sorted((c for c in those if len(c.answer) > 3000), key=lambda c: len(c.answer))[:1]
        for c in chosen:
            for at in sorted({0, len(c.answer) - 1, rng.randrange(len(c.answer))} if c in small else {len(c.answer) - 1}):
                answer = bytearray(c.answer)
                answer[at] ^= 1 << rng.randrange(8)
                yield c.bytes(answer=bytes(answer))
        for c in chosen[:2]:
            yield c.bytes(answer=c.answer + b"\0")
            yield c.bytes(answer=c.answer[:-1])


def main():
    oracle, folder = sys.argv[1:]
    cases = all_cases()
    for c in cases:
        if c.kind == "is_utf8":
            # the table once more, by Python's own decoder
            try:
                c.s.decode("utf-8")
                assert is_utf8(c.s), c.s
            except UnicodeDecodeError:
                assert not is_utf8(c.s), c.s
    questions = ask(oracle, cases)
    false = list(falsified(cases))
    last = next(c for c in cases if c.kind == "parse_u32_list" and len(c.answer) > 20)
    files = {"cases.bin": b"".join(c.bytes() for c in cases), "falsified.bin": b"".join(false),
             "cut.bin": b"".join(c.bytes() for c in cases[:3]) + last.bytes()[:-1]}
    for name, data in files.items():
        with open(os.path.join(folder, name), "wb") as f:
            f.write(data)
        print("%s: %d bytes" % (name, len(data)))
    record = Record()
    for c in cases:
        record.add(c.answer[0], c.kind, *judge(c))
    record.write(folder)
    for kind in KINDS[1:]:
        those = [c for c in cases if c.kind == kind]
        print("%-18s %5d cases, %5d from the Rust, refusals %s" % (kind, len(those), sum(c.seen for c in those),
              " ".join(str(n) for n in sorted({c.answer[0] for c in those}))))
    print("%d cases, %d from the Rust by %d files; %d falsified" % (len(cases), sum(c.seen for c in cases), questions, len(false)))


if __name__ == "__main__":
    main()
