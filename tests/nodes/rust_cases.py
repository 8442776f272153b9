#!/usr/bin/env python3
"""Makes loads whose answers the Rust gives, and loads outside the comparison, judged by documents 01 and 02.

    python3 rust_cases.py ORACLE LOAD FILES GENERATED.. > CASES

ORACLE is the folder of the compiled Rust, which has its program, target/release/oracle, and model.py, a second reading of documents 01 and
02, which is told how many requests of document 02 have landed. LOAD and FILES are a list of loads and the folder of their files, as tests/vectors/README.md describes them. Each GENERATED is a folder of files
with a list, index.tsv, that ORACLE's gen.py makes.

Every file is loaded by the Rust and by model.py, into an empty store. Where both refuse it with the same number and line, or accept it with
the same header, roots, nodes and truth tables, the judge is the Rust. Else the documents judge, and there must be a reason that
tests/cases/record.py names; where none fits, the script stops: docs/DIFFERENCES.md lacks an entry. Files that the documents put outside the
comparison are judged by them even where the Rust agrees. Of a file that is refused for a minus that doesn't touch its digit, the Rust must
give what model.py says of it without the requests of document 02, or differ from that in a way that has an entry. The answers of LOAD must be
model.py's, and so must the truth tables that gen.py worked out from the lines that it wrote.

All of LOAD is kept. Of the generated files some are kept of each answer and judge, shared among the kinds of files (whole, made to meet a
refusal, damaged in each way, each group of short texts) and spread evenly over each.

CASES has a load a line, columns between tabs: those of LOAD, with the file's whole path; then the source, the judge and the reason. The
same files give the same cases.
"""
import os
import re
import sys

HERE = os.path.dirname(os.path.abspath(__file__))
sys.path.insert(0, os.path.join(HERE, "..", "cases"))
import minus  # noqa: E402
import oracle  # noqa: E402
from record import DOCUMENT, RUST  # noqa: E402

SLOTS = 4096
# How many files are kept of one answer and judge: accepted ones, ones refused for their nodes, and others.
KEPT_ACCEPTED, KEPT_NODES, KEPT_HEADER = 640, 230, 90


class Load:
    def __init__(self, path, levels, level_list, slots, source, kind):
        self.path, self.levels, self.list, self.slots, self.source, self.kind = path, levels, level_list, slots, source, kind
        self.stored = None  # the columns of LOAD from the refusal on
        self.tables = None  # truth tables that the file's maker worked out
        with open(path, "rb") as f:
            self.data = f.read()

    def commands(self):
        yield "header " + self.path
        given = "" if self.list is None else " --levels-list " + (",".join(map(str, self.list)) or ",")
        yield "import %s %d%s --slots %d --store" % (self.path, self.levels, given, self.slots)


def numbers(text):
    return [int(x) for x in text.split(",") if x not in ("", "-")]


def listed(values):
    return ",".join(map(str, values)) or "-"


def of_load(table, folder):
    with open(table) as f:
        for line in f:
            x = line.rstrip("\n").split("\t")
            load = Load(os.path.join(folder, x[0]), int(x[1]), numbers(x[2]), int(x[3]), "vectors/" + x[0], "vectors")
            load.stored = x[4:]
            yield load


def option(args, name, otherwise):
    words = args.split()
    return words[words.index(name) + 1] if name in words else otherwise


def of_generated(folder):
    with open(os.path.join(folder, "index.tsv"), encoding="ascii") as f:
        for line in f:
            name, aim, _, levels, args, _, tables, note = line.rstrip("\n").split("\t")
            kind = note if re.match("short: |damaged: ", note) else "whole" if aim == "0" else "made to meet " + aim if aim != "?" else "made"
            listing = option(args, "--levels-list", None)
            load = Load(os.path.join(folder, name), int(levels), None if listing is None else numbers(listing),
                        int(option(args, "--slots", SLOTS)), os.path.basename(folder) + "/" + name.split(".")[0], kind)
            load.tables = None if tables == "-" else [settings(t, load.levels) for t in tables.split(",")]
            yield load


def settings(digits, levels):
    """A truth table in the oracle's digits as one character for each setting."""
    return "".join(str(int(d, 16) >> i & 1) for d in digits for i in range(4))[:1 << levels]


def tables_of(m, levels):
    """The roots' answers at all settings, from the store's nodes."""
    says = [[1] * (1 << levels)]

    def edge(e):
        return says[abs(e) - 1] if e > 0 else [1 - x for x in says[abs(e) - 1]]
    for level, then, els in m["nodes"]:
        says.append([t if s >> level & 1 else e for s, (t, e) in enumerate(zip(edge(then), edge(els)))])
    return ["".join(map(str, edge(e))) for e in m["edges"]]


def agrees(check, m, load, header, imported):
    """Whether the Rust's answer is model.py's."""
    number, line = check.number(imported[0])
    if "refused" in m:
        return (number, str(line)) == (m["refused"][0], str(m["refused"][1]))
    roots = [x.split(" ") for x in imported if x.startswith("root ")]
    nodes = ["node %d level %d then %d else %d" % ((n,) + x) for n, x in enumerate(m["nodes"], 2)]
    return (number == 0 and header == check.expected(m) and [x[3] for x in roots] == [str(e) for e in m["edges"]]
            and [x for x in imported if x.startswith("node ")] == nodes
            and (load.levels > 8 or [settings(x[5], load.levels) for x in roots] == m["tables"]))


def edge_list(model, data, line):
    """The edge list of a file's line, where the line is refused for it: a root list, or the children of a text node line."""
    text = data.split(b"\n")[line - 1].rstrip(b"\r")
    try:
        before = 3 if model.read_header(data)[0]["varinfo"] != 4 else 2  # the number, perhaps an extra word, the variable
    except model.Refused:
        before = 1  # the key
    return re.match(rb"(?:[ \t]*[^ \t]+){%d}(.*)" % before, text, re.S).group(1)


def is_apart(model, load, m):
    """Is a minus that doesn't touch its digit the fault of a file?"""
    number, line = m.get("refused", (0, 0))
    return number == 17 and minus.alone(edge_list(model, load.data, line))


def reason(m, same, said):
    """Why document 01 judges alone; None where the Rust does."""
    refusal = m["refused"][0] if "refused" in m else 0
    stopped = re.match("panic|abort", said)
    if m["outside"]:
        return "line left out"
    if refusal == 33:
        return "other terminal"
    if same:
        return None
    if refusal in (18, 19, 38):
        return {18: "not UTF-8", 19: "over a limit", 38: "over 64 bits"}[refusal]
    if refusal == 2 and stopped:
        return "level list"
    if refusal in (20, 21) and re.search("capacity overflow|memory allocation", said) and stopped:
        return "reserves memory"
    if refusal == 34 and re.search(r"panic import .*index out of bounds.* import\.rs:776$", said):
        return "relative variable"
    sys.exit("the Rust differs in a way that has no entry: %s, the Rust %s" % (m.get("refused", "accepted"), said))


def read(model, load, requests=oracle.REQUESTS):
    """What model.py says of a load, where so many requests of document 02 have landed."""
    model.REQUESTS = requests
    m = model.load(load.data, load.levels, load.list, load.slots)
    model.REQUESTS = oracle.REQUESTS
    if "refused" not in m:
        m["tables"] = tables_of(m, load.levels) if load.levels <= 8 else []
    return m


def judged(folder, loads):
    """Each load with its answer, by model.py, and the reason why the Rust isn't its judge."""
    model = oracle.reading(folder)
    import check
    said = oracle.answers(oracle.program(folder), [c for load in loads for c in load.commands()], ".")
    for load, header, imported in zip(loads, said[0::2], said[1::2]):
        m = read(model, load)
        apart = is_apart(model, load, m)
        before = read(model, load, 0)
        by_rust = before if apart else m
        # beside a minus only the limits have changed: a file that was over one is judged further
        assert apart or m == before or before["refused"] == (19, 0), load.source
        assert load.tables is None or "refused" in by_rust or load.tables == by_rust["tables"], load.source
        why = reason(by_rust, agrees(check, by_rust, load, header, imported), imported[0])
        if load.list is None:
            try:
                load.list = sorted(model.read_header(load.data)[0]["permids"])
            except model.Refused:
                load.list = []
        yield load, m, "minus alone" if apart else why


def row(load, m, why):
    if "refused" in m:
        answer = [str(x) for x in m["refused"]] + ["-"] * 3
    else:
        answer = ["0", "0", listed(m["edges"]), listed("%d:%d:%d" % x for x in m["nodes"]), listed(m["tables"])]
    assert load.stored is None or load.stored == answer, (load.source, load.stored, answer)
    judge = [RUST, "-"] if why is None else [DOCUMENT, why]
    return [load.path, str(load.levels), listed(load.list), str(load.slots)] + answer + [load.source + " " + load.kind] + judge


def spread(group, most):
    return group if len(group) <= most else [group[i * len(group) // most] for i in range(most)]


def shared(groups, most):
    """At most that many of all, the same number of each group as far as it has so many."""
    each = 0
    while each < max(map(len, groups)) and sum(min(len(g), each + 1) for g in groups) <= most:
        each += 1
    return [x for g in groups for x in spread(g, each)]


def kept(rows):
    """Of each answer and judge some rows of every kind, in their order."""
    answers = {}
    for n, x in enumerate(rows):
        folder, kind = x[9].split("/")[0], x[9].split(" ", 1)[1]
        answers.setdefault((int(x[4]), x[11]), {}).setdefault((folder, kind), []).append(n)
    chosen = []
    for (refusal, _), kinds in answers.items():
        chosen += shared(list(kinds.values()), KEPT_ACCEPTED if refusal == 0 else KEPT_NODES if refusal >= 30 else KEPT_HEADER)
    return [rows[n] for n in sorted(chosen)]


def main():
    folder, table, files = sys.argv[1:4]
    stored = [row(*x) for x in judged(folder, list(of_load(table, files)))]
    generated = [row(*x) for d in sys.argv[4:] for x in judged(folder, list(of_generated(d)))]
    for x in stored + kept(generated):
        print("\t".join(x))
    print("%d stored loads, %d generated ones; of these %d alike in the Rust" % (len(stored), len(generated), sum(x[10] == RUST for x in generated)),
          file=sys.stderr)


main()
