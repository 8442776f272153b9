#!/usr/bin/env python3
"""Makes the stored cases of the program `vectors_header`.

    python3 make_cases.py LOAD FILES ORACLE OUTDIR

LOAD has a line for each file of the folder FILES: its name, three columns of no use here, the refusal of loading the file, 0 for none,
and the refusal's line; columns stand between tabs. ORACLE is a program over the Rust: `ORACLE batch LIST` answers each line
`header FILE` of a list with what `DumpHeader::load` gives for that file; `-` leaves the comparison with the Rust out. OUTDIR is the
folder to write to. The same files and the same script give the same cases, byte for byte, with the oracle and without it.

A case is a file, the lengths of the nine lent lists and what the caller found before, and what loading the header gives: the refusal
and its line, or the numbers of the header and the entries of each lent list. Every answer is worked out by the section 'The document'
below, a plain reading of document 01 ('Answers', 'Limits', 'Header') and of document 02 (orders 3 and 5). It is compared

- with LOAD, for its files: a refusal and its line must be LOAD's; an accepted header is one that LOAD accepts, or refuses for its nodes;
- with the Rust, for every file that the call comes to read: an accepted header must be accepted with the same values, and a refusal
  must be the Rust's, by its message, with the same line. The Rust has no 18 and 19: there it must not refuse an earlier line. It
  reserves memory by a count before the count is judged: where one of ten million or more is refused, it may panic or abort instead.
  The position after `.nodes`' line isn't among what it tells. A root list with a minus that doesn't touch its digit has left the match
  with the Rust by document 02: there the Rust must give what document 01 says of the list as tests/cases/minus.py reads it.

Where anything differs the script stops. The cases are:

- the files of FILES, each cut off shortly after its `.nodes` line, but for those over 12,000 bytes;
- the cases 'Tried by hand' of document 01 that a header has;
- spellings: every key, longer and shorter by a byte and in other letters; blanks, tabs, CRs; a last line with no LF; empty lines;
- values of each key, good and bad, and each byte there is in some places of a header;
- root lists with a minus and what may follow it: a blank, a tab, the end, a CR; before and behind entries and other faults, at the limit
  too, in a list that counts and in one that a later line replaces;
- names and the diagram's name with every kind of byte sequence that is UTF-8 or isn't;
- the limits, at the last value that passes and at the first that doesn't, also in lists that a later line replaces;
- the lists of names, given or not, alike and unlike, in and outside the support;
- each two faults of the header as a whole;
- lent lists that are shorter and longer, and what the caller found before;
- headers of up to seven variables, whole and with one to three faults of any kind, the keys in any order and some given twice.

The files:

    cases.bin       all cases
    falsified.bin   some cases, each with one stored value changed
    cut.bin         a few cases and a last one that isn't whole
    index.tsv       for each of all cases its source and judge, with the oracle only: see tests/cases/record.py

A case is 27 bytes, numbers with the lowest byte first: what the caller found; the lengths of the lists ids, support order, permids,
auxids, names (starts, lengths), roots, root names (starts, lengths), two bytes each; the lengths of the file and of the answer, four
bytes each. Then come the file and the answer. An answer is numbers of 32 bits. A refusal is its number and its line. A header is 0;
1 for mode A, else 0; varinfo; start and length of the diagram's name; `.nnodes`, `.nvars`, `.nsuppvars`, `.nroots`; the position after
`.nodes`' line; the number of lines; then each list, as how many entries it has and these (a root as its 32 bits), without the zeros at
its end; after the last list that has entries nothing follows.
"""
import itertools
import os
import random
import re
import subprocess
import sys
import tempfile

sys.path.insert(0, os.path.join(os.path.dirname(os.path.abspath(__file__)), "..", "cases"))
import minus  # noqa: E402
from record import DOCUMENT, RUST, Record  # noqa: E402

VARS, ROOTS, NODES, INPUT = 4096, 1024, 1000000, 67108864
LISTS = ("ids", "order", "permids", "auxids", "names", "lens", "roots", "rootnames", "rootlens")
LENT = (VARS,) * 6 + (ROOTS,) * 3
BLANK = b" \t"


# The document ------------------------------------------------------------------------------------------------------------------


class Refused(Exception):
    pass


def lines_of(f):
    """'A line ends at LF; trailing CR and LF go.' Each line's start, its content and where the next one starts."""
    at = 0
    while at < len(f):
        end = f.find(b"\n", at)
        after = len(f) if end < 0 else end + 1
        yield at, f[at:after].rstrip(b"\r\n"), after
        at = after


def key_and_value(line):
    """'The key runs to the first space or tab; the value is trimmed of both.' The key, the value, and where it starts."""
    key = re.match(rb"[^ \t]*", line).group()
    rest = line[len(key):]
    value = rest.strip(BLANK)
    return key, value, len(key) + (len(rest) - len(rest.lstrip(BLANK)) if value else 0)


def digits_of(text, below):
    """The number of some digits; 15 at the digit that makes it too large."""
    v = 0
    for c in text:
        v = 10 * v + c - 48
        if v >= below:
            raise Refused(15)
    return v


def single(value, bits):
    """'14 a single number has a foreign character or no digit. 15 a number is too large.' The first byte at fault decides."""
    digits = re.match(rb"[0-9]*", value).group()
    v = digits_of(digits, 1 << bits)
    if not value or digits != value:
        raise Refused(14)
    return v


def words(value):
    return [(m.start(), m.group()) for m in re.finditer(rb"[^ \t]+", value)]


def counted(entries, most):
    """'Entries of a line are judged left to right, an entry's own fault before the count.'"""
    found = []
    for e in entries:
        found.append(e)
        if len(found) > most:
            raise Refused(19)
    return found


def number_list(value):
    def entries():
        for _, word in words(value):
            digits = re.match(rb"[0-9]*", word).group()
            v = digits_of(digits, 1 << 32)
            if digits != word:
                raise Refused(16)
            yield v
    return counted(entries(), VARS)


def edge_list(value):
    """'A minus must touch its digit': an entry is a word, an optional minus and digits. '17 a second minus, or a minus after a digit', and
    'also for a minus without its digit, found where the blank or the end stands', which is where its word ends."""
    def entries():
        for _, word in words(value):
            sign, digits, rest = re.fullmatch(rb"(-?)([0-9]*)(.*)", word, flags=re.S).groups()
            v = digits_of(digits, 1 << 63)
            if rest:
                raise Refused(17 if rest.startswith(b"-") else 16)
            if not digits:
                raise Refused(17)
            yield -v if sign else v
    return counted(entries(), ROOTS)


def text(value, start):
    """'18 a name or `.dd` value isn't UTF-8.' 'An empty name or `.dd` is start 0, length 0.'"""
    try:
        value.decode("utf-8")
    except UnicodeDecodeError:
        raise Refused(18)
    return (start, len(value)) if value else (0, 0)


def name_list(value, start, most):
    return counted((text(word, start + at) for at, word in words(value)), most)


def chosen(value, values, refusal):
    if value not in values:
        raise Refused(refusal)
    return value


READ = {  # for each key what its value says
    b".ver": lambda v, at: chosen(v, (b"DDDMP-2.0", b"DDDMP-3.0"), 12),
    b".mode": lambda v, at: chosen(v, (b"A", b"B"), 13),
    b".varinfo": lambda v, at: chosen(v, (b"0", b"1", b"2", b"3", b"4"), 13),
    b".dd": text,
    b".nnodes": lambda v, at: single(v, 64),
    b".nvars": lambda v, at: single(v, 32),
    b".nsuppvars": lambda v, at: single(v, 32),
    b".nroots": lambda v, at: single(v, 64),
    b".varnames": lambda v, at: name_list(v, at, VARS),
    b".suppvarnames": lambda v, at: name_list(v, at, VARS),
    b".orderedvarnames": lambda v, at: name_list(v, at, VARS),
    b".ids": lambda v, at: number_list(v),
    b".permids": lambda v, at: number_list(v),
    b".auxids": lambda v, at: number_list(v),
    b".rootids": lambda v, at: edge_list(v),
    b".rootnames": lambda v, at: name_list(v, at, ROOTS),
}


def said(f, read):
    """What each key's last value says, the position after `.nodes`' line and that line's number; or the refusal and its line. `read` has
    for each key how its value is read."""
    # '`.ver` may be missing; mode defaults to A, varinfo to 4.' A missing number is 0, a missing list empty.
    h = {key: [] for key in read}
    h.update({b".mode": b"A", b".varinfo": b"4", b".dd": (0, 0), b".nnodes": 0, b".nvars": 0, b".nsuppvars": 0, b".nroots": 0})
    for number, (at, line, after) in enumerate(lines_of(f), 1):
        key, value, start = key_and_value(line)
        if key == b".nodes":  # 'The value of `.nodes` is ignored.'
            return h, after, number
        if key not in read:
            raise Refused(11, number)
        try:
            h[key] = read[key](value, at + start)  # 'A repeated key: the last counts, but each is read.'
        except Refused as e:
            raise Refused(e.args[0], number)
    raise Refused(10, 0)


def name_views(h):
    """For each list of names that is given, the places of the support variables' names, in the order of `.ids`."""
    given = [(h[b".varnames"], h[b".ids"]), (h[b".orderedvarnames"], h[b".permids"]), (h[b".suppvarnames"], range(h[b".nsuppvars"]))]
    return [[names[i] for i in index] for names, index in given if names]


def whole(f, h):
    """'The file's writer, header as a whole, in this order'. The first refusal, 0 of none."""
    nvars, nsupp, ids, permids = h[b".nvars"], h[b".nsuppvars"], h[b".ids"], h[b".permids"]
    if nvars > VARS or h[b".nnodes"] > NODES:
        return 19
    if nsupp > nvars:
        return 20
    if len(ids) != nsupp or len(permids) != nsupp or len(h[b".auxids"]) not in (0, nsupp):
        return 21
    if sorted(set(ids)) != ids or ids and ids[-1] >= nvars:
        return 22
    if len(set(permids)) < len(permids) or any(p >= nvars for p in permids):
        return 23
    if any(len(h[k]) not in (0, n) for k, n in ((b".orderedvarnames", nvars), (b".suppvarnames", nsupp), (b".varnames", nvars))):
        return 21
    if any(f[a:a + n] != f[b:b + m] for x, y in itertools.combinations(name_views(h), 2) for (a, n), (b, m) in zip(x, y)):
        return 24
    if len(h[b".rootids"]) != h[b".nroots"]:
        return 21
    for r in h[b".rootids"]:
        if r == 0:
            return 25
        if abs(r) > h[b".nnodes"]:
            return 26
    return 0 if len(h[b".rootnames"]) in (0, h[b".nroots"]) else 21


def variable_names(h):
    """'Names: `.varnames` first; else `.orderedvarnames`, support variables by permid and the rest in order; else `.suppvarnames` with
    empty names elsewhere.'"""
    if h[b".varnames"]:
        return h[b".varnames"]
    if h[b".orderedvarnames"]:
        by_variable = dict(zip(h[b".ids"], h[b".permids"]))
        rest = iter([p for p in range(h[b".nvars"]) if p not in h[b".permids"]])
        return [h[b".orderedvarnames"][by_variable[v] if v in by_variable else next(rest)] for v in range(h[b".nvars"])]
    if h[b".suppvarnames"]:
        by_variable = dict(zip(h[b".ids"], h[b".suppvarnames"]))
        return [by_variable.get(v, (0, 0)) for v in range(h[b".nvars"])]
    return []


class Answer:
    """The numbers, and the entries of each list."""

    def __init__(self, numbers, lists=()):
        self.numbers, self.lists = list(numbers), [list(x) for x in lists]

    def copy(self):
        return Answer(self.numbers, self.lists)


def loaded(f, lent=LENT, found=0, read=READ):
    """'Order: load gives 1 (lists), 3, 19 for the input's length, header'."""
    if any(n < (ROOTS if i >= 6 else VARS) for i, n in enumerate(lent)):
        return Answer((1, 0))
    if found:
        return Answer((found, 0))
    if len(f) > INPUT:
        return Answer((19, 0))
    try:
        h, after, lines = said(f, read)
    except Refused as e:
        return Answer(e.args)
    refusal = whole(f, h)
    if refusal:
        return Answer((refusal, 0))
    order = [v for _, v in sorted(zip(h[b".permids"], h[b".ids"]))]  # 'Support order is `.ids` arranged by ascending permid.'
    names, rootnames = variable_names(h), h[b".rootnames"]
    return Answer(
        (0, int(h[b".mode"] == b"A"), int(h[b".varinfo"]), *h[b".dd"], h[b".nnodes"], h[b".nvars"], h[b".nsuppvars"], h[b".nroots"],
         after, lines),
        (h[b".ids"], order, h[b".permids"], h[b".auxids"], [s for s, _ in names], [n for _, n in names], h[b".rootids"],
         [s for s, _ in rootnames], [n for _, n in rootnames]))


# The Rust ----------------------------------------------------------------------------------------------------------------------


MESSAGES = (  # what the Rust's refusals say
    ("unexpected end of file", 10), ("unknown key", 11), ("unsupported version", 12), ("unknown value", 13),
    (r"unexpected char .* in integer \(", 14), (r"expected an integer \(", 14), (r"integer ('.*' )?too large", 15),
    ("unexpected char .* in space-separated", 16), ("expected a (digit after|space before) '-'", 17), (r"\.nsuppvars \(", 20),
    ("number of (support variables|variables|roots) in", 21), ("support variables in .ids must", 22),
    (r"levels in \.permids|level \(", 23), (r"\.varnames and|\.suppvarnames and", 24), (r"\.rootids must not be 0", 25),
    (r"entry in \.rootids out of range", 26))


def rust_answers(oracle, files):
    """The oracle's answer for each file, as its lines."""
    with tempfile.TemporaryDirectory() as folder:
        for i, f in enumerate(files):
            with open(os.path.join(folder, str(i)), "wb") as out:
                out.write(f)
        with open(os.path.join(folder, "list"), "w") as out:
            out.write("".join("header %d\n" % i for i in range(len(files))))
        run = subprocess.run([os.path.abspath(oracle), "batch", "list"], cwd=folder, stdout=subprocess.PIPE, check=False)
    answers = re.split(r"^case \d+ .*\n", run.stdout.decode("ascii"), flags=re.M)[1:]
    assert len(answers) == len(files)
    return [a.splitlines() for a in answers]


def quoted(f, place):
    """A text of the file as the oracle prints it: a byte that isn't printable ASCII, a quote and a backslash as \\xNN."""
    return '"' + "".join(chr(c) if 32 <= c < 127 and c not in (34, 92) else "\\x%02x" % c for c in f[place[0]:sum(place)]) + '"'


def rust_values(f, answer):
    """What the oracle prints of an accepted header."""
    _, ascii_, varinfo, dd, dd_len, nnodes, nvars, nsupp, nroots, _, lines = answer.numbers
    ids, order, permids, auxids, names, lens, roots, rootnames, rootlens = answer.lists

    def row(name, entries):
        return " ".join([name] + [str(e) for e in entries])

    def texts(name, starts, lens):
        return row(name, [quoted(f, p) for p in zip(starts, lens)] or ["none"])
    kind = ("VariableID", "PermutationID", "AuxiliaryID", "VariableName", "None")[varinfo]
    return ["ok", row("diagram_name", [quoted(f, (dd, dd_len)) if dd_len else "none"]), row("num_nodes", [nnodes]),
            row("num_vars", [nvars]), row("num_support_vars", [nsupp]), row("support_vars", ids), row("support_var_order", order),
            row("support_var_to_level", permids), row("auxiliary_var_ids", auxids), texts("var_names", names, lens),
            row("num_roots", [nroots]), texts("root_names", rootnames, rootlens), row("ascii", [str(bool(ascii_)).lower()]),
            row("varinfo", [kind]), row("lines", [lines]), row("rootids", roots)]


def rust_refusal(line):
    """The number and the line of the Rust's refusal."""
    message = re.match(r'err header \w+ "(.*)"$', line).group(1)
    number = [n for pattern, n in MESSAGES if re.match(pattern, message)]
    at = re.search(r"\(line (\d+)\)$", message)
    return number[0], int(at.group(1)) if at else 0


def waiting_list(value):
    """A root list as the Rust reads it: a minus waits for its digit."""
    def entries():
        found, refusal = minus.waiting(value)
        yield from found
        if refusal:
            raise Refused(refusal)
    return counted(entries(), ROOTS)


READ_BY_RUST = {**READ, b".rootids": lambda v, at: waiting_list(v)}


def is_apart(case):
    """Is a minus that doesn't touch its digit the fault of a header?"""
    number, line = case.answer.numbers[:2]
    return number == 17 and minus.alone(key_and_value([x for _, x, _ in lines_of(case.file)][line - 1])[1])


def held(file, answer, lines):
    """How the Rust's answer stands to a reading's; who judges; whether it is as it should be."""
    number, kind = answer.numbers[0], lines[0].split()[0]
    if number == 0:
        return "accepted alike", (RUST,), lines == rust_values(file, answer)
    if kind in ("panic", "abort"):
        fits = re.search(rb"^\.n\w+[ \t]+0*[1-9][0-9]{7}", file, flags=re.M) is not None
        return "panic or abort in place of a refusal", (DOCUMENT, "reserves memory"), fits
    if number in (18, 19):
        fits = kind == "ok" or (rust_refusal(lines[0])[1] or 10 ** 9) >= answer.numbers[1]
        how = "%d, accepted or refused later by the Rust" % number
        return how, (DOCUMENT, "not UTF-8" if number == 18 else "over a limit"), fits
    return "refused alike", (RUST,), kind == "err" and rust_refusal(lines[0]) == tuple(answer.numbers)


def compare(oracle, cases, tally):
    cases = [c for c in cases if c.lent == LENT and not c.found]
    for case, lines in zip(cases, rust_answers(oracle, [c.file for c in cases])):
        if is_apart(case):
            how, _, fits = held(case.file, loaded(case.file, read=READ_BY_RUST), lines)
            how, case.judge = "17 for a minus alone; as the Rust reads it " + how, (DOCUMENT, "minus alone")
        else:
            how, case.judge, fits = held(case.file, case.answer, lines)
        if not fits:
            sys.exit("the Rust differs: %r\n%s\n%s" % (case.file[:200], case.answer.numbers, "\n".join(lines)))
        tally[how] = tally.get(how, 0) + 1


# Cases -------------------------------------------------------------------------------------------------------------------------
#
# Files are written here as strings whose characters are their bytes.


class Case:
    def __init__(self, file, lent=LENT, found=0):
        self.file, self.lent, self.found = file, tuple(lent), found
        self.answer = loaded(file, lent, found)
        self.judge = (DOCUMENT, "lent parts")  # of a case that isn't compared with the Rust


def of_files(load, folder):
    for line in open(load):
        name, _, _, _, number, at = line.rstrip("\n").split("\t")[:6]
        with open(os.path.join(folder, name), "rb") as f:
            file = f.read()
        expected, got = [int(number), int(at)], loaded(file).numbers
        if got[0] == 0:  # 14 to 17 are also given by text node lines, which come after the header's
            assert not 10 <= expected[0] <= 26 or 14 <= expected[0] <= 17 and got[-1] < expected[1], line
            expected = [0]
        assert got[:len(expected)] == expected, line
        nodes = re.search(rb"^\.nodes.*\n", file, flags=re.M)
        case = Case(file[:nodes.end() + 12] if nodes else file)
        assert case.answer.numbers[:len(expected)] == expected, line
        if len(case.file) <= 12000:
            yield case


def header(*lines, nodes=".nodes\n"):
    return ("".join(line + "\n" for line in lines) + nodes).encode("latin-1")


def listed(key, entries):
    return " ".join([key] + [str(e) for e in entries])


KEYS = [key.decode() for key in READ]
COUNTS, NUMBER_LISTS = (".nnodes", ".nvars", ".nsuppvars", ".nroots"), (".ids", ".permids", ".auxids")
NAME_LISTS = (".varnames", ".orderedvarnames", ".suppvarnames", ".rootnames")

TINY = (".nvars 3", ".nsuppvars 2", ".ids 0 2", ".permids 2 1")
SMALL = (".ver DDDMP-2.0", ".nnodes 5", *TINY, ".nroots 2", ".rootids 4 -5")
SAMPLE = (".ver DDDMP-2.0", ".mode A", ".varinfo 4", ".nnodes 3", ".nvars 2", ".nsuppvars 2", ".suppvarnames gate dock",
          ".orderedvarnames gate dock", ".ids 0 1", ".permids 0 1", ".nroots 2", ".rootids 3 -3", ".rootnames full short")


def of_hand():
    yield header(*SAMPLE, nodes=".nodes\n1 T 0 0\n2 1 1 -1\n3 0 2 -1\n.end\n")
    for roots, n in (("- 5 7", 2), ("3 -", 1), ("3-", 1), ("- 5 7 -", 2), ("-\t5", 1), ("- -5", 1), ("--5", 1), ("-0", 1)):
        yield header(".nnodes 7", f".rootids {roots}", f".nroots {n}")
    for nvars in (3, 2):
        yield header(f".nvars {nvars}", ".nsuppvars 2", ".ids 0 2", ".permids 0 1")
    yield b".nodes\n.end\n"


def of_spellings():
    for nodes in ("", "\n", "\r", "\r\n", " ", ".nodes", ".nodes ", ".nodes\r", ".nodes\r\n", ".nodes\r\r\n", ".nodes\n\n", ".nodes 5\n",
                  ".nodes\t.nodes\nx", ".nodes \xff\xfe\n\0\1\2", " .nodes\n", "\t.nodes\n", ".nodes\0\n", ".Nodes\n", ".NODES\n",
                  "nodes\n", ".node\n", ".nodess\n", "..nodes\n", ".end\n", ".nodes\n.nodes\n", "\n.nodes\n",
                  "\r\n.nodes\n", ".nodes\r \n"):
        yield header(nodes=nodes)
        yield header(*SMALL, nodes=nodes)
        yield header(*SMALL[:3], nodes=nodes)
    for i in range(len(SMALL)):  # an empty line, one of blanks, and an unknown key, in each place
        for line in ("", " ", "\t", "\r", ".end", "#", "x " + SMALL[i], " " + SMALL[i], "\xff"):
            yield header(*SMALL[:i], line, *SMALL[i:])
    good = {".ver": "DDDMP-3.0", ".mode": "A", ".varinfo": "4", ".dd": "x", **dict.fromkeys(COUNTS, "0")}
    for key in KEYS + [".nodes"]:
        value = good.get(key, "")
        for other in (key, key[:-1], key[1:], key + "s", key + ".", "." + key, key[1:] + ".", key.upper(), key.replace("s", ""),
                      key + "\r", key + "\0", key + "\xc2\xa0", "." + key[1:].capitalize(),
                      key[:2] + key[2:].capitalize(), key[:-1] + key[-1].upper()):
            yield header(".nvars 0", f"{other} {value}")
        for blank in ("\t", "  ", " \t ", "\t\t"):
            yield header(key + blank + value, f"{key} {value}{blank}", key + blank + value + blank + "\r")
        yield header(f"{key} {value}\r\r", f"{key}\r")
        yield header(f"{key} {value}\r ", key)
        yield header(*[f"{key} {value}"] * 3, nodes=f"{key} {value}")
    for lines in (SAMPLE, SMALL):
        for end in ("\r", "\r\r", " \r", "\t", " \t \r\r"):
            yield header(*(line + end for line in lines))
        for blank in ("\t", " \t  ", "\t\t"):
            yield header(*(line.replace(" ", blank) for line in lines))


# Values, between bars.
VERSIONS = ("|DDDMP-2.0|DDDMP-3.0|DDDMP-1.0|DDDMP-2|DDDMP-2.00|DDDMP-3|dddmp-2.0|2.0|DDDMP-2.0 x|DDDMP 2.0|DDDMP-2.1|DDDMP-4.0|DDDMP-2.0\0"
            "|DDDMP-2.0\r|DDDMP-3.0\r \r|xDDDMP-2.0|DDDMP-23.0|\xff")
MODES = "|A|B|a|b|AB|A B|A A|C|T|0|A\0|B\r|B\r x|\xff|\xc3\x84|Ab"
VARINFOS = "|0|1|2|3|4|5|9|00|04|4 4|-1|+4|4.|/|:|A|\xff|2\r|3\r 3"
NUMBERS = ("|0|1|00|007|00000000000000000000000000000000000000002|+1|-1|- 1|1 2|1\t2|1x|x|x1|0x1|1.|1,2|1_0|4096|4097|32767|32768|65536"
           "|1000000|1000001|4294967295|4294967296|4294967296x|4294967295x|x4294967296|42949672950|42949672960000|4294967297 1|1 4294967297"
           "|9223372036854775807|9223372036854775808|18446744073709551615|18446744073709551616|18446744073709551615x"
           "|18446744073709551616x|4x18446744073709551616|18446744073709551625|184467440737095516150|99999999999999999999"
           "|0000000000000000000018446744073709551615|0000000000000000000018446744073709551616|1111111111111111111111111111111111111"
           "|\xff|1\xff|\xd9\xa1|1\r2|1\r x|\0|1\0|/|:|9|A")
LISTS_OF_NUMBERS = ("|0|0 1|1 0|0\t1|0  \t 1|0 1 2|0 0|007 8|0,1|0 x|x 0|0x 1|0 1x|-1|1 -1|1 - 1|-|1-|1 -|+1|4294967295 1|4294967296"
                    "|1 4294967296|4294967296x|4294967295x|x4294967296|1 x 4294967296|1 4294967296 x|18446744073709551616"
                    "|99999999999999999999 x|1\r2|1 \r 2|\xff|1 \xff|0 \0|\0|/|:|0\x0b1|0\x0c1|0\xc2\xa01|1."
                    "|00000000000000000000000000000001")
LISTS_OF_ROOTS = LISTS_OF_NUMBERS + (
    "|1 -2|-1 2|-1 -2|- 1 2|1 - 2|1 -\t2|--1|- -1|-1-|-1 -|1--|1 --|1 - -|- -|-\t-|1-2|1-2 x|-x|- x|1 -x|x-|-1x|-4294967296"
    "|9223372036854775807|-9223372036854775807|9223372036854775808|-9223372036854775808|- 9223372036854775808|9223372036854775808-"
    "|9223372036854775807-|9223372036854775807x|9223372036854775808x|92233720368547758070|--9223372036854775808|18446744073709551617"
    "|-0|- 0|00|-00 1|1 -0|32767|-32767|32768|-32768|65537|-65535|4294967297")
LISTS_OF_NAMES = ("|a|a b|a\tb|a \t b|a b c|a a|ab b|a bc|-|0 1|. .nodes|\"a b\"|a,b c|a\0 b|\x01 \x7f|a\rb c|a \r b|\xc3\xa4 \xc3\xb6"
                  "|\xe2\x82\xac \xf0\x9f\x98\x80|\xff|a \xff|\xff a|a\xff b|\xc3 \xa4|a\xc3 \xa4b|\xc2\xa0 b|a\x0bb c|a\x0cb c"
                  "|\xef\xbb\xbfa b")
TEXTS = LISTS_OF_NAMES + "|a b  c|a\t\tb| x |\r|x\r|x\r |a \xff b|" + "x" * 300


def of_values():
    for key, values in ((".ver", VERSIONS), (".mode", MODES), (".varinfo", VARINFOS)):
        good = values.split("|")[2]
        for value in values.split("|"):
            yield header(*TINY, f"{key} {value}")
            yield header(f"{key} {value}", f"{key} {good}")
            yield header(f"{key} {good}", f"{key}\t{value}", nodes=".nodes")
    for key in COUNTS:
        for value in NUMBERS.split("|"):
            yield header(*SMALL, f"{key} {value}")
            yield header(".nvars 0", f"{key}\t{value}\t")
    for key in (*NUMBER_LISTS, ".rootids"):
        for value in (LISTS_OF_ROOTS if key == ".rootids" else LISTS_OF_NUMBERS).split("|"):
            yield header(f"{key}  {value}", *TINY)
            n = len([word for word in value.split() if word.strip("-")])
            count = f".nroots {n}" if key == ".rootids" else f".nsuppvars {n}"
            yield header(".nvars 3", ".nnodes 1000000", listed(".ids", (0, 1, 2)[:n]), listed(".permids", (2, 0, 1)[:n]), count,
                         f"{key} {value}")
    for key, n in zip(NAME_LISTS, (3, 3, 2, 2)):
        for value in LISTS_OF_NAMES.split("|"):
            yield header(*SMALL, f"{key} {value}")
            yield header(*SMALL, f"{key}\t{value}", listed(key, "pqr"[:n]))
            yield header(*SMALL, f"{key} {value}" + " z" * (n - len(re.findall("[^ \t]+", value))))
    for value in TEXTS.split("|"):
        yield header(*TINY, f".dd {value}")
        yield header(f".dd\t {value} \t")
        yield header(f".dd {value}", ".dd")
        yield header(".dd y", f".dd {value}")


# Root lists, between bars, with a minus and what may follow it.
MINUSES = ("-|-\t|- |-\r|-\r\r|-\r |-\r1|1 -\r2|-\r -|- \r|-\t\r1|- 1|-\t1|-  \t 1|1 -|1\t-|1 - 2|1 -\t2|-1 -|-1 - 1|- -|-\t-|- -1|-1 - -1"
           "|- 0|0 -|-0 -|--|-- -|- --|-- 1|3-|3- -|- 3-|3 - 4-|-x|-x -|- x|x -|- 1x|1x -|1 - x|-\xff|- \xff|-\0|-\x0b1|-\xc2\xa01"
           "|+1 -|- +1|-/|-:|9223372036854775808 -|- 9223372036854775808|1 - 9223372036854775808|-9223372036854775808 -|-9223372036854775807 -"
           "|-9223372036854775807-|- 9223372036854775808x|10 -|- 10|-10 -")


def of_minuses():
    for value in MINUSES.split("|"):
        n = len(re.findall("[0-9]+", value))
        yield header(".nnodes 9", f".rootids {value}", ".nroots 0")
        yield header(".nnodes 9", f".nroots {n}", f".rootids\t{value}")
        yield header(f".rootids {value}", ".nnodes 9", ".nroots 1", ".rootids -9")  # 'the last counts, but each is read'
        yield header(".nnodes 9", ".rootids -9", f".rootids {value}", ".rootids", ".nvar")
        yield header(".mode A", nodes=f".rootids {value}")
    for over in ("-\t", "-\t1", "- 1 1", "1 -", "1 - 1", "-1 -", "-1 -x", "-x -", "- x", "--", "1- -", "9223372036854775808 -", "-\r1",
                 "1 -\r1"):
        yield header(".nnodes 1", ".nroots 1", listed(".rootids", [1] * ROOTS + [over]), ".rootids 1")
        yield header(".nnodes 1", listed(".rootids", [-1] * (ROOTS - 1) + [over]), f".nroots {ROOTS}")
    for line in (".ver x", ".mode", ".nvars -", ".ids -", ".permids 1 -", ".rootids x", ".rootids 1-", ".rootnames -", ".varnames - -"):
        yield header(line, ".rootids -")
        yield header(".rootids 1 -", line)


def of_bytes():
    """Each byte there is, in some places."""
    for c in map(chr, range(256)):
        yield header(f".varinfo{c}3")
        yield header(f".nvars 1{c}")
        yield header(f".ids 0{c}")
        yield header(".nnodes 99", ".nroots 2", f".rootids 1{c}3")
        yield header(".nvars 1", f".varnames x{c}y")


def of_utf8():
    sequences = [x for n in (1, 2) for x in itertools.product("\x41\x80\xbf\xc1\xc2\xdf\xe0\xf4\xff", repeat=n)]
    sequences += itertools.product("\xe0\xe1\xed\xef", "\x80\x9f\xa0\xbf\xc0", "\x7f\x80\xbf")
    sequences += itertools.product("\xf0\xf1\xf4\xf5", "\x8f\x90\xbf", "\x80\xc0", "\x7f\xbf")
    places = ((".dd a%s",), (".nvars 2", ".varnames b %s"), (".nvars 1", ".orderedvarnames %sc"),
              (".nsuppvars 1", ".nvars 1", ".ids 0", ".permids 0", ".suppvarnames %s"),
              (".nroots 1", ".rootids 1", ".nnodes 1", ".rootnames d%s"))
    for i, s in enumerate(map("".join, sequences)):
        for k in range(len(places) if len(s) == 1 else 1):
            *lines, last = places[(i + k) % len(places)]
            yield header(*lines, last % s)


def of_limits():
    for key in NUMBER_LISTS + NAME_LISTS[:3]:  # of_full has lists of 4,096
        yield header(".dd x", listed(key, [1] * (VARS + 1)))
    yield header(listed(".auxids", [1] * VARS + ["4294967296"]))
    yield header(listed(".permids", [1] * VARS + [1, "4294967296"]))
    yield header(listed(".varnames", [1] * VARS + ["\xff"]))
    yield header(listed(".suppvarnames", [1] * VARS + [1, "\xff"]))
    yield header(listed(".ids", [1] * (VARS + 1)), ".ids")
    yield header(listed(".orderedvarnames", [1] * (VARS + 1)), ".orderedvarnames", nodes="")
    for n in (ROOTS, ROOTS + 1):
        for count in (n, n - 1):
            yield header(".nnodes 1", f".nroots {count}", listed(".rootids", [1] * n))
        yield header(".nnodes 1", listed(".rootids", [1] * ROOTS), f".nroots {ROOTS}", listed(".rootnames", "r" * n))
    for over in ("0", "-", "- -", "x", "1-", "9223372036854775808", "1 x", "- 1"):
        yield header(".nnodes 1", ".nroots 1", listed(".rootids", [1] * ROOTS + [over]), ".rootids 1")
    for over in ("\xff", "a \xff", "a"):
        yield header(".nnodes 1", ".nroots 1", ".rootids -1", listed(".rootnames", "r" * ROOTS + over), ".rootnames r")
    for n in (VARS - 1, VARS, VARS + 1, 65536, 4294967295):
        yield header(f".nvars {n}")
        yield header(f".nvars {n}", ".nsuppvars 1", f".permids {n - 1}", f".ids {n - 1}")
        yield header(f".nvars {n}", ".nsuppvars 1", f".permids {n}", ".ids 0")
        yield header(f".nvars {n}", ".nsuppvars 1", ".permids 0", f".ids {n}")
        yield header(f".nvars {n}", f".nsuppvars {n + 1}", ".permids 0")
        yield header(".nvars 1", f".nsuppvars {n}")
        yield header(f".nvars {n}", ".nvars 2")
        yield header(".nvars 2", f".nvars {n}", f".nnodes {NODES + 1}")
        yield header(f".nvars {n}", ".nsuppvars 1", f".permids {n - 1}", ".ids 0", ".suppvarnames a")
    for n in (32766, 32767, 32768, 65535, 65536, NODES - 1, NODES, NODES + 1, 2 ** 32, 2 ** 63 - 1, 2 ** 63, 2 ** 64 - 1):
        for r in (n, -n, n + 1, -n - 1, n - 1):
            yield header(f".nnodes {n}", ".nroots 1", f".rootids {r}")
        yield header(".nvars 2", ".nsuppvars 3", f".nnodes {n}")
        yield header(f".nnodes {n}", ".nnodes 5")


def of_full(rng):
    """Lists with all entries that there may be."""
    order, some = rng.sample(range(VARS), VARS), sorted(rng.sample(range(VARS), 40))
    roots = [rng.choice((1, -1)) * rng.randint(1, NODES) for _ in range(ROOTS)]
    yield header(f".nnodes {NODES}", f".nvars {VARS}", f".nsuppvars {VARS}", listed(".ids", range(VARS)), listed(".permids", order),
                 listed(".auxids", (x % 10 for x in order)), listed(".suppvarnames", ("a" if x % 9 else "bc" for x in order)),
                 f".nroots {ROOTS}", listed(".rootids", roots), listed(".rootnames", ["r"] * (ROOTS - 1) + ["last"]))
    yield header(f".nvars {VARS}", listed(".varnames", ["v"] * (VARS - 1) + ["last"]))
    yield header(f".nvars {VARS}", ".nsuppvars 40", listed(".ids", some), listed(".permids", order[:40]),
                 listed(".orderedvarnames", ["w"] * (VARS - 1) + ["last"]))
    yield header(f".nvars {VARS}", ".nsuppvars 2", ".ids 0 99", ".permids 4095 0", ".suppvarnames a b")


def in_order(names, ids, permids, rest):
    """The names by position: those of support variables at their permids, the others at the positions that are left."""
    places = [permids[ids.index(v)] if v in ids else rest.pop(0) for v in range(len(names))]
    return [names[places.index(p)] for p in range(len(names))]


def of_names():
    """Each combination of the lists of names, with the names that they should have, and with another one in each place."""
    supports = ((4, (1, 3), (2, 0)), (4, (0, 1, 2, 3), (2, 0, 3, 1)), (4, (2,), (3,)), (3, (), ()), (4, (0, 2, 3), (1, 2, 0)))
    for nvars, ids, permids in supports:
        names = ["a", "bb", "c", "a"][:nvars]
        ordered = in_order(names, ids, permids, [p for p in range(nvars) if p not in permids])
        start = (f".nvars {nvars}", f".nsuppvars {len(ids)}", listed(".ids", ids), listed(".permids", permids))
        full = list(zip(NAME_LISTS, (names, ordered, [names[v] for v in ids])))
        for n in range(4):
            for given in map(dict, itertools.combinations(full, n)):
                yield header(*start, *itertools.starmap(listed, given.items()))
                for key, x in given.items():
                    changed = [x[:i] + [other] + x[i + 1:] for i in range(len(x)) for other in ("x", x[i] + "b")[:n]]
                    for y in changed + [x + ["y"]]:
                        yield header(*start, *itertools.starmap(listed, {**given, key: y}.items()))
                    yield header(*start, f"{key} x \xc3\xa4", *itertools.starmap(listed, reversed(given.items())), key)
    two = (".nvars 2", ".nsuppvars 2", ".ids 0 1", ".permids 1 0")
    for one, other in (("a\r b", "b a\r"), ("b a\r", "a\r b")):  # a CR before a blank belongs to the name, at a line's end not
        yield header(*two, f".varnames {one}", f".orderedvarnames {other}")


def of_order():
    """A header whose lists are all given, with a fault, and with each two: the first check that finds one decides."""
    base = (".nnodes 9|.nvars 4|.nsuppvars 3|.ids 0 1 3|.permids 3 0 1|.auxids 5 6 7|.varnames a b c d|.orderedvarnames b d c a"
            "|.suppvarnames a b d|.nroots 2|.rootids 4 -9|.rootnames f g")
    faults = (".nvars 4097|.nnodes 1000001|.nsuppvars 5|.ids 0 1|.permids 3 0|.auxids 5|.ids 0 3 1|.ids 0 1 4|.ids 0 1 1|.permids 3 0 4"
              "|.permids 3 0 3|.orderedvarnames b d c|.suppvarnames a b|.varnames a b c d e|.varnames a b c x|.suppvarnames a b x"
              "|.orderedvarnames x d c a|.rootids 4|.rootids 4 0|.rootids -10 0|.rootids 0 10|.rootnames f g h|.nroots 3|.nnodes 8"
              "|.nvars 3")
    for n in (0, 1, 2):
        for some in itertools.combinations(faults.split("|"), n):
            changed = {line.split()[0]: line for line in some}
            if len(changed) == n:
                yield header(*(changed.get(line.split()[0], line) for line in base.split("|")))


def of_lent(rng):
    files = (header(*SAMPLE), header(*SMALL, ".auxids 7 9", ".varnames a b c", ".rootnames f g"), header(*SMALL, ".suppvarnames a b"),
             header(*SMALL, ".orderedvarnames a b c"), header(), header(*SMALL, ".mode C"), header(".nvars x"), b"",
             header(*SMALL, ".rootids 0 1"))
    for f in files:
        for found in (0, 3, 2, 255):
            for by in (0, 4, -1, -VARS):
                yield Case(f, [max(0, n + by) for n in LENT], found)
        for i in range(9):
            for n in (0, LENT[i] - 1, LENT[i] + 3):
                yield Case(f, LENT[:i] + (n,) + LENT[i + 1:], rng.choice((0, 0, 3)))
        for _ in range(5):
            yield Case(f, [n + rng.randint(0, 4) for n in LENT])
            yield Case(f, [rng.choice((n, n, n + 2, rng.randint(0, n))) for n in LENT], rng.choice((0, 0, 3)))


# Headers of a few variables, whole at first: a list of lines, each as its key and the words of its value.


def some_header(rng):
    nvars = rng.choice((0, 1, 2, 3, 3, 4, 5, 6, 7))
    nsupp = rng.randint(0, nvars)
    ids, permids = sorted(rng.sample(range(nvars), nsupp)), rng.sample(range(nvars), nsupp)
    nroots, nnodes = rng.choice((0, 1, 1, 2, 3, 5)), rng.choice((1, 2, 7, 40, 1000000))
    names = [rng.choice(("a", "b", "long", f"x{v}", "\xc3\xa4", "-1", "0", ".ids")) for v in range(nvars)]
    ordered = in_order(names, ids, permids, rng.sample([p for p in range(nvars) if p not in permids], nvars - nsupp))
    lines = [[".nnodes", nnodes], [".nvars", nvars], [".nsuppvars", nsupp], [".ids", *ids], [".permids", *permids], [".nroots", nroots],
             [".rootids", *(rng.choice((1, -1)) * rng.randint(1, nnodes) for _ in range(nroots))]]
    for line in ([".ver", rng.choice(("DDDMP-2.0", "DDDMP-3.0"))], [".mode", rng.choice("AB")], [".varinfo", rng.randrange(5)],
                 [".dd", *rng.choice(([], ["x"], ["some", "name"]))], [".auxids", *(rng.choice((1, 99, 4294967295)) for _ in ids)],
                 [".varnames", *names], [".orderedvarnames", *ordered], [".suppvarnames", *(names[v] for v in ids)],
                 [".rootnames", *(rng.choice(("f", "g", f"root{i}")) for i in range(nroots))]):
        if rng.random() < 0.45:
            lines.append(line)
    if rng.random() < 0.7:
        rng.shuffle(lines)
    return [[str(word) for word in line] for line in lines]


def changed_list(rng, x, others):
    i = rng.randint(1, max(1, len(x) - rng.randint(0, 1)))
    how = rng.choice("addccceet")  # an entry added, deleted, changed, exchanged, given twice
    if how == "a" or i == len(x):
        x.insert(i, rng.choice(others))
    elif how == "d":
        del x[i]
    elif how == "c":
        x[i] = rng.choice(others)
    elif how == "e":
        j = rng.randrange(1, len(x))
        x[i], x[j] = x[j], x[i]
    else:
        x[i] = x[rng.randrange(1, len(x))]


def another_count(rng, x):
    if rng.random() < 0.5 and x[1:] and x[1].isdigit():
        x[1] = str(max(0, int(x[1]) + rng.choice((-1, 1))))
    else:
        x[1:] = [rng.choice(NUMBERS.split("|"))]


CHANGES = (  # each is made to a line with one of these keys
    (COUNTS, another_count),
    ((*NUMBER_LISTS, ".rootids"), lambda rng, x: changed_list(rng, x, ["0", "1", "2", "7", "4294967295"])),
    ((".rootids",), lambda rng, x: changed_list(rng, x, ["0", "-0", "-1", "32768", "-32768", "9223372036854775807", "-", "--"])),
    (NAME_LISTS, lambda rng, x: changed_list(rng, x, ["a", "A", "other", "\xc3\xb6", "\xff", "longer"])),
    ((".ver", ".mode", ".varinfo", ".dd"), lambda rng, x: changed_list(rng, x, ["5", "a", "AB", "DDDMP-1.0", "\xff"])),
    (KEYS, lambda rng, x: x.append(x.pop() + rng.choice(("x", "-", "\0", "\xff", "\r", "9")))),
    (KEYS, lambda rng, x: x.__setitem__(0, rng.choice(KEYS))))


def fault(rng, lines):
    """Changes something; often there is a fault afterwards."""
    kind = rng.randrange(14)
    if kind < 10:
        keys, change = CHANGES[kind % len(CHANGES)]
        found = [x for x in lines if x[0] in keys]
        if found:
            change(rng, rng.choice(found))
    elif kind == 10:  # a line left out
        lines.remove(rng.choice(lines))
    elif kind == 11:  # a line for the second time, perhaps with other values, before or behind
        x = list(rng.choice(lines))
        if x[0] not in COUNTS:
            changed_list(rng, x, ["1", "2"])
        lines.insert(rng.randint(0, len(lines)), x)
    elif kind == 12:  # a line of another kind
        line = rng.choice(([""], [".end"], [".nvar", "1"], [".add"], ["\xff"], [".dd", "\xff"], [".nodes", "now"]))
        lines.insert(rng.randint(0, len(lines)), list(line))
    else:  # a list emptied by a later line
        lines.append([rng.choice((*NUMBER_LISTS, *NAME_LISTS, ".rootids"))])


def written(rng, lines):
    """The lines as a file: blanks, tabs and CRs where they may stand."""
    loose = rng.random() < 0.3
    text = ""
    for line in lines + [[".nodes", *rng.choice(([], [], ["5"]))]]:
        if loose:
            text += "".join(word + rng.choice((" ", "\t", "  ", " \t ")) for word in line[:-1]) + line[-1]
            text += rng.choice(("", " ", "\t")) + rng.choice(("", "\r", "\r\r")) + "\n"
        else:
            text += " ".join(line) + "\n"
    after = rng.choice(("", "", "1 T 0 0\n", "\0\0\x24\2\x7c", ".nodes\n.end\n"))
    return (text[:-1] if rng.random() < 0.05 else text + after).encode("latin-1")


def of_headers(rng, count):
    for _ in range(count):
        lines = some_header(rng)
        for _ in range(rng.choice((0, 0, 1, 1, 1, 2, 2, 3))):
            fault(rng, lines)
        yield written(rng, lines)


# Files -------------------------------------------------------------------------------------------------------------------------


def number_bytes(values, size):
    return b"".join((v % (1 << 8 * size)).to_bytes(size, "little") for v in values)


def used(entries):
    """The entries without the zeros at their end: zeros follow anyway."""
    n = len(entries)
    while n and entries[n - 1] == 0:
        n -= 1
    return entries[:n]


def case_bytes(case, answer):
    lists = [used([v % 2 ** 32 for v in x] if name == "roots" else x) for name, x in zip(LISTS, answer.lists)]
    while lists and not lists[-1]:
        lists.pop()
    stored = number_bytes(answer.numbers + [v for x in lists for v in [len(x)] + x], 4)
    lengths = number_bytes(case.lent, 2) + number_bytes((len(case.file), len(stored)), 4)
    return bytes([case.found]) + lengths + case.file + stored


def falsified(rng, answer):
    """The answer with one value changed."""
    other = answer.copy()
    longer = [x for x in other.lists if x]
    if longer and rng.random() < 0.6:
        x = rng.choice(longer)
        i = rng.randrange(len(x))
        how = rng.randrange(4)
        if how == 0 and x[-1]:
            x.pop()
        elif how == 1:
            x.append(1)
        else:
            x[i] = x[i] + 1 if x[i] < 32767 else x[i] - 1
    elif other.lists and rng.random() < 0.2:
        rng.choice(other.lists).append(1)
    else:
        i = rng.randrange(len(other.numbers))
        other.numbers[i] = rng.choice([v for v in (0, 1, other.numbers[i] + 1, 255) if v != other.numbers[i]])
    return other


def unique(cases, seen):
    for case in cases:
        what = (case.file, case.lent, case.found)
        if what not in seen:
            seen.add(what)
            yield case


def main():
    load, folder, oracle, outdir = sys.argv[1:]
    rng = random.Random(20260207)
    groups = [("files", of_files(load, folder))]
    for name, files in (("hand", of_hand()), ("spellings", of_spellings()), ("values", of_values()), ("bytes", of_bytes()),
                        ("utf8", of_utf8()), ("limits", of_limits()), ("full", of_full(rng)), ("names", of_names()), ("order", of_order())):
        groups.append((name, map(Case, files)))
    groups += [("lent", of_lent(rng)), ("headers", map(Case, of_headers(rng, 900))), ("minuses", map(Case, of_minuses()))]
    seen, whole_file, false_file, cut_file, rust, counts, record = set(), [], [], [], {}, {}, Record()
    for name, cases in groups:
        cases = list(unique(cases, seen))
        if oracle != "-":
            compare(oracle, cases, rust.setdefault(name, {}))
        for k, case in enumerate(cases):
            whole_file.append(case_bytes(case, case.answer))
            record.add(case.answer.numbers[0], name, *case.judge, file=case.file)
            tally = counts.setdefault(name, {})
            tally[case.answer.numbers[0]] = tally.get(case.answer.numbers[0], 0) + 1
            if k % 12 == 4 and len(case.file) < 400:
                false_file.append(case_bytes(case, falsified(rng, case.answer)))
        if name == "hand":
            cut_file = [case_bytes(case, case.answer) for case in cases[:4]]
    for name, data in (("cases.bin", b"".join(whole_file)), ("falsified.bin", b"".join(false_file)), ("cut.bin", b"".join(cut_file)[:-1])):
        with open(os.path.join(outdir, name), "wb") as f:
            f.write(data)
    if oracle != "-":
        record.write(outdir)
    print("cases", len(whole_file), "falsified", len(false_file), "cut", len(cut_file))
    for name, tally in counts.items():
        print(name, sum(tally.values()), " ".join("%d: %d" % x for x in sorted(tally.items())))
        for how, n in sorted(rust.get(name, {}).items()):
            print("    the Rust, %s: %d" % (how, n))


main()
