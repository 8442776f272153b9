#!/usr/bin/env python3
"""Runs the inputs of docs/DIFFERENCES.md on the Rust.

    python3 tests/differences/rust.py ORACLE

ORACLE is the oracle's folder: the published Rust over plain managers. It is copied to build/oracle and compiled there, with and without
overflow checks. Every row of inputs.tsv is loaded, and every row of tests/export/differences.tsv exported; where the Rust does other than
the row says, or ORACLE's model.py, a second reading of documents 01 and 02, has another answer than the row, the script says so and ends
with status 1.

inputs.tsv has an input a line, columns between tabs, `-` for none:

     1      the input, in the document's spelling
     2 to 9 as the columns of tests/vectors/load.tsv: the level count of an empty store; the level list; the number of slots; the refusal, 0
            for none; its line; the roots; the store's nodes as `level:then:else`; each root's answers
    10      the entry of the document
    11      what the Rust does: `refused N line M`, its error text turned into document 01's number; `accepted ROOTS ANSWERS`, roots and answers
            as in columns 7 and 9; `panics WHERE`; `no memory`, where a request for more than 256 MiB is made; or `-`, not compared
    12      the same with overflow checks, where that is something else

tests/differences.test holds the table to the document, and the tests of the library for C load each input.

In tests/export/differences.tsv the columns 20 and 23, 24 are: the entry; `ok` or `err`, what the Rust returns; and a line that the Rust's file
has, or `no KEY` for a key that it doesn't have, or `-`. Where the judge, column 21, is the Rust, its file must be the stored one, up to the
order inside a level: its lines are brought into the order of first meeting before (`in_order` of tests/export/lines.py).
"""
import os
import re
import sys
import tempfile

HERE = os.path.dirname(os.path.abspath(__file__))
ROOT = os.path.dirname(os.path.dirname(HERE))
sys.path[:0] = [os.path.join(ROOT, "tests", x) for x in ("cases", "export")]
import oracle  # noqa: E402
import rust_cases as export_cases  # noqa: E402
from lines import in_order  # noqa: E402

RUST_FOLDER = "build/oracle"
NAMED = {"n": b"\n", "r": b"\r", "t": b"\t"}


def spelled(text):
    """The bytes of an input in the document's spelling."""
    out = b""
    for count, inner, code, name, plain in re.findall(r"\\\*(\d+)\((.*?)\)|\\x([0-9a-f]{2})|\\([nrt])|([^\\])", text):
        if count:
            out += spelled(inner) * int(count)
        else:
            out += bytes([int(code, 16)]) if code else NAMED[name] if name else plain.encode("ascii")
    return out


def rows_of(path):
    with open(path, encoding="ascii") as f:
        return [line.rstrip("\n").split("\t") for line in f]


def listed(values):
    return ",".join(map(str, values)) or "-"


def settings(digits, levels):
    return "".join(str(int(d, 16) >> i & 1) for d in digits for i in range(4))[:1 << levels]


def does(check, answer, levels):
    """What the Rust does, in the words of column 11."""
    first = answer[0]
    if first.startswith("abort"):
        return "no memory"
    if first.startswith("panic"):
        where = "capacity overflow" if "capacity overflow" in first else first.split(" ")[-1]
        return "panics " + where
    if first != "ok":
        return "refused %s line %s" % check.number(first)
    roots = [x.split(" ") for x in answer if x.startswith("root ")]
    return "accepted %s %s" % (listed(x[3] for x in roots), listed(settings(x[5], levels) for x in roots))


def by_document(model, data, row):
    """What model.py says, in the words of the columns 5 to 8."""
    m = model.load(data, int(row[1]), [int(x) for x in row[2].split(",") if x != "-"], int(row[3]))
    if "refused" in m:
        return [str(x) for x in m["refused"]] + ["-", "-"]
    return ["0", "0", listed(m["edges"]), listed("%d:%d:%d" % x for x in m["nodes"])]


def loads(check, model, rows):
    """Yields each row with what the Rust does, in both builds, and what the documents say."""
    with tempfile.TemporaryDirectory() as folder:
        commands = []
        for n, row in enumerate(rows):
            with open(os.path.join(folder, str(n)), "wb") as f:
                f.write(spelled(row[0]))
            commands.append("import %d %s --levels-list %s --slots %s" % (n, row[1], "," if row[2] == "-" else row[2], row[3]))
        plain, checked = (oracle.answers(oracle.program(RUST_FOLDER, p), commands, folder) for p in ("release", "checked"))
    for row, a, b in zip(rows, plain, checked):
        levels = int(row[1])
        yield row, does(check, a, levels), does(check, b, levels), by_document(model, spelled(row[0]), row)


def exports(rows):
    """Yields each row with what the Rust does."""
    with tempfile.TemporaryDirectory() as folder:
        commands = []
        for n, row in enumerate(rows):
            with open(os.path.join(folder, str(n)), "wb") as f:
                f.write(export_cases.whole_store(row))
            # E6 is about an empty list of root names, which the table can't tell from no list
            commands.append(export_cases.export_command(str(n), row) + (" --empty-root-names" if row[19] == "E6" else ""))
        for row, answer in zip(rows, oracle.answers(oracle.program(RUST_FOLDER), commands, folder)):
            yield row, answer[0].split(" ")[0], bytes.fromhex(answer[-1][6:])


def shows(file, line):
    lines = file.decode("utf-8").split("\n")
    if line.startswith("no "):
        return not any(x.split(" ")[0] == line[3:] for x in lines)
    return line == "-" or line in lines


def main():
    if len(sys.argv) != 2:
        sys.exit("usage: rust.py ORACLE")
    source = os.path.abspath(sys.argv[1])
    os.chdir(ROOT)
    oracle.build(source, RUST_FOLDER, ("release", "checked"))
    model = oracle.reading(RUST_FOLDER)
    import check
    inputs, written = rows_of("tests/differences/inputs.tsv"), rows_of("tests/export/differences.tsv")
    wrong = 0
    for row, plain, checked, document in loads(check, model, inputs):
        says = row[10], row[11] if row[11] != "-" else row[10]
        if row[10] != "-" and says != (plain, checked) or row[4:8] != document:
            wrong += 1
            print("%s %s levels %s: the Rust %s, with overflow checks %s, the documents %s" % (row[9], row[0], row[1], plain, checked, document))
    for row, result, file in exports(written):
        same = row[20] != "rust" or in_order(file) == bytes.fromhex(row[18])
        if result != row[22] or not shows(file, row[23]) or not same:
            wrong += 1
            print("%s: the Rust returns %s, and writes %r" % (row[19], result, file))
    print("%d loads and %d exports of docs/DIFFERENCES.md on the Rust, %d other than written" % (len(inputs), len(written), wrong))
    sys.exit(1 if wrong else 0)


if __name__ == "__main__":
    main()
