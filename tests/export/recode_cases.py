#!/usr/bin/env python3
"""Works out what the program `recode` writes, from documents 01 and 02, for tests/vectors/recoded.

    python3 recode_cases.py ORACLE FILES OUTDIR

ORACLE is the folder of the compiled Rust; its model.py loads a file by documents 01 and 02. FILES is the folder of the files, and OUTDIR the one to
write to: OUTDIR/NAME is what `recode` makes of FILES/NAME. What it writes is worked out by lines.py, word by word from the definition, and
never by the library. The Rust recodes each file too. Where both write one, the two must be the same up to the order inside a level, but for
files outside the comparison (`outside` in model.py).
"""
import os
import sys

sys.path.insert(0, os.path.join(os.path.dirname(os.path.abspath(__file__)), "..", "cases"))
import lines  # noqa: E402
import oracle  # noqa: E402

INPUT, SLOTS, SCRATCH, OUTPUT, NAME = 65536, 4096, 4096, 65536, 255  # what `recode` reads and lends, and the most bytes of a name


def refused(number, line):
    return b"refused %d line %d\n" % (number, line)


def fits(name, diagram=False):
    """Is a name fit for a strict export? Its text was read from a file, so it is UTF-8."""
    unfit = [b for b in name if b < 32 or b == 127 or b == 32 and not diagram]
    return len(name) <= NAME and (diagram or name != b"") and not unfit


def order_of(h):
    """The level of each variable: a support variable's permid; the others take the free levels, both ascending."""
    levels = dict(zip(h["ids"], h["permids"]))
    free = iter(level for level in range(h["nvars"]) if level not in h["permids"])
    return [levels[v] if v in levels else next(free) for v in range(h["nvars"])]


def given_names(h):
    """The names of variables where all are present, else None; of roots; of the diagram."""
    names = [x.encode() for x in h["names"] or []]
    return names if len(names) == h["nvars"] and all(names) else None, [x.encode() for x in h["rootnames"]], h["dd"].encode()


def export_size(h, names, rootnames, dd):
    return 256 + 32 * (len(h["nodes"]) + 1) + 24 * h["nvars"] + 16 * len(h["edges"]) + 3 * sum(map(len, names or [])) + sum(map(len, rootnames)) + len(dd)


def loaded(model, data):
    """What a load gives, by model.py at the limits of `recode`: `refused`, or the header with nodes and edges."""
    if len(data) > INPUT:
        return {"refused": (19, 0)}
    try:
        h, _ = model.read_header(data)
    except model.Refused as r:
        return {"refused": r.args[0]}
    return {"refused": (1, 0)} if h["nnodes"] > SCRATCH else model.load(data, h["nvars"], None, SLOTS)


def recoded(h):
    if "refused" in h:
        return refused(*h["refused"])
    names, rootnames, dd = given_names(h)
    if export_size(h, names, rootnames, dd) > OUTPUT:
        return refused(1, 0)
    if not all(map(fits, (names or []) + rootnames)) or not fits(dd, True):
        return refused(5, 0)
    return lines.exported(dict(enumerate(h["nodes"], 2)), h["edges"], order_of(h), names=names, rootnames=rootnames, dd=dd)


def share_a_level(file):
    """Has a file two lines of one level?"""
    positions = [x[0] for x in lines.taken_apart(file)[2] if x is not None]
    return len(set(positions)) < len(positions)


def main():
    folder, files, outdir = [os.path.abspath(x) for x in sys.argv[1:]]
    model = oracle.reading(folder)
    names, written, shared, same = sorted(os.listdir(files)), 0, 0, 0
    for name, said in zip(names, oracle.answers(oracle.program(folder), ["recode " + x for x in names], files)):
        with open(os.path.join(files, name), "rb") as f:
            h = loaded(model, f.read())
        output = recoded(h)
        with open(os.path.join(outdir, name), "wb") as f:
            f.write(output)
        if output.startswith(b"refused"):
            continue
        written, shared = written + 1, shared + share_a_level(output)
        if not h["outside"]:
            assert said[0] == "ok" and lines.in_order(bytes.fromhex(said[1][6:])) == output, (name, said)
            same += 1
    print("%d files, %d of them written, %d with two lines of one level; the Rust writes %d the same, up to the order inside a level"
          % (len(names), written, shared, same))


if __name__ == "__main__":
    main()
