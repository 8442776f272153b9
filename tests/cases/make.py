#!/usr/bin/env python3
"""Makes all stored cases again, with the Rust: those of the programs `vectors_*`, those that tests/firmware replays, and what `recode` writes;
and the tables of document 02 that scripts of this repository work out.

    python3 tests/cases/make.py ORACLE [install]

ORACLE is the oracle's folder: the published Rust over plain managers, with gen.py, which makes files, and model.py, a second reading of
documents 01 and 02. It is copied to build/oracle and compiled there; cargo is needed for it, and no network. Everything else is made in
build/cases. The same oracle and the same scripts give the same bytes.

At its end the script prints the table of coverage, and says of every file of stored cases, of each replay's expected output, of INDEX.tsv
and of COVERAGE.md whether what stands in the repository is what was made. With `install` it puts there what was made. Without it, it ends
with status 1 where something differs.

INDEX.tsv says of each stored case which judge it has: the replay, the cases by number, from 0, as `first-last` where several follow one
another, their source, the judge and the reason. record.py lists the reasons. COVERAGE.md counts what the cases have.
"""
import itertools
import os
import re
import subprocess
import sys
import time

HERE = os.path.dirname(os.path.abspath(__file__))
ROOT = os.path.dirname(os.path.dirname(HERE))
sys.path.insert(0, HERE)
import oracle  # noqa: E402
from record import DOCUMENT, KEYS, REASONS, RUST  # noqa: E402

RUST_FOLDER, OUT = "build/oracle", "build/cases"
REPLAYS = ("readers", "header", "loads", "store", "exports", "large")
# Where the cases of a replay stand, and its expected output.
IN_C = {name: ("tests/vectors/%s/" % name, "tests/vectors/%s/expected" % name) for name in ("loads", "exports", "large")}
PLACES = {name: IN_C.get(name, ("crates/vectors_%s/data/" % name, "crates/vectors_%s/stdout" % name)) for name in REPLAYS}
DATA = ("cases.bin", "falsified.bin", "cut.bin")
# The generated files: folder, and the words for gen.py (seed, rounds).
GENERATED = {"short": ("7", "1", "--short"), "seed7": ("7", "100")}
LOAD, ROOM, STORES, EVALUATE, EXPORT = ("tests/vectors/%s.tsv" % x for x in ("load", "room", "stores", "evaluate", "export"))
FILES, RECODED = "tests/vectors/files", "tests/vectors/recoded"
# The tables of document 02 that a script works out from the definition.
TABLES = {"order.tsv": "tests/export/order_cases.py", "joins.tsv": "tests/joins/make_cases.py"}


def run(script, *words, output=None):
    """Runs a script of this repository, or of the oracle's copy, and gives what it writes. Stops where it fails."""
    print("  " + " ".join((script,) + words), flush=True)
    written = subprocess.run([sys.executable, script, *words], stdout=subprocess.PIPE, check=True, encoding="utf-8").stdout
    if output:
        with open(output, "w", encoding="utf-8") as f:
            f.write(written)
    return written


def folder(name):
    path = os.path.join(OUT, name)
    os.makedirs(path, exist_ok=True)
    return path


def generate():
    for name, words in GENERATED.items():
        path = folder(name)
        for old in os.listdir(path):
            os.unlink(os.path.join(path, old))
        run(RUST_FOLDER + "/gen.py", path, *words)


def falsified(report):
    """How many falsified cases a script says that it made."""
    found = re.search(r"; (\d+) falsified|falsified (\d+)", report)
    return int(found.group(1) or found.group(2))


def make():
    """Makes the files of stored cases. Gives how many falsified ones each replay has."""
    loads, program = os.path.join(OUT, "load.tsv"), oracle.program(RUST_FOLDER)
    made = {"readers": run("tests/readers/make_cases.py", program, folder("readers")),
            "header": run("tests/header/make_cases.py", LOAD, FILES, program, folder("header"))}
    run("tests/nodes/rust_cases.py", RUST_FOLDER, LOAD, FILES, *(folder(x) for x in GENERATED), output=loads)
    made["loads"] = run("tests/nodes/make_cases.py", loads, ROOM, FILES, folder("loads"))
    made["store"] = run("tests/store/make_cases.py", STORES, EVALUATE, folder("store"))
    lists = folder("exports") + "/stored.tsv", folder("exports") + "/generated.tsv"
    run("tests/export/rust_cases.py", RUST_FOLDER, folder("seed7"), LOAD, FILES, EXPORT, folder("exports"))
    made["exports"] = run("tests/export/make_cases.py", folder("exports"), *lists, "tests/export/differences.tsv")
    made["large"] = run("tests/export/large_cases.py", RUST_FOLDER, folder("large"))
    run("tests/export/recode_cases.py", RUST_FOLDER, FILES, folder("recoded"))
    for name, script in TABLES.items():
        run(script, os.path.join(folder("02"), name))
    return {name: falsified(report) for name, report in made.items()}


# What is known of the cases ----------------------------------------------------------------------------------------------------


class Known:
    """A line of index.tsv."""

    def __init__(self, replay, line):
        self.replay = replay
        self.refusal, self.source, self.judge, self.reason, keys, self.mode, self.version, self.names, met = line.rstrip("\n").split("\t")
        self.keys = [] if keys == "-" else keys.split(",")
        self.met = [] if met == "-" else met.split(",")
        self.has_file = self.mode != "-"
        self.kind = self.source.split(" ", 1)[1] if re.match("(short|seed7|vectors)/", self.source) and " " in self.source else self.source


def known():
    cases = []
    for replay in REPLAYS:
        with open(os.path.join(OUT, replay, "index.tsv"), encoding="utf-8") as f:
            cases += [Known(replay, line) for line in f]
    return cases


def index_text(cases):
    lines = ["replay\tcases\tsource\tjudge\treason"]
    for replay, those in itertools.groupby(cases, key=lambda c: c.replay):
        numbered = enumerate(those)
        for what, group in itertools.groupby(numbered, key=lambda x: (x[1].source, x[1].judge, x[1].reason)):
            numbers = [n for n, _ in group]
            span = "%d" % numbers[0] if len(numbers) == 1 else "%d-%d" % (numbers[0], numbers[-1])
            lines.append("\t".join((replay, span) + what))
    return "".join(line + "\n" for line in lines)


# The table of coverage ---------------------------------------------------------------------------------------------------------


def table(title, first, cases, values):
    """How many cases have each value, by replay. `values` gives the values that a case has, as (place, name) where their order isn't that
    of the letters."""
    counts = {}
    for c in cases:
        for v in values(c):
            counts.setdefault(v if isinstance(v, tuple) else (0, v), dict.fromkeys(REPLAYS, 0))[c.replay] += 1
    replays = [r for r in REPLAYS if any(counts[v][r] for v in counts)]
    several = len(replays) > 1
    lines = ["", "## " + title, "", row([first] + replays + ["all"] * several), "|---" * (1 + len(replays) + several) + "|"]
    for v in sorted(counts):
        numbers = [counts[v][r] for r in replays]
        lines.append(row([v[1]] + ["{:,}".format(n) if n else "" for n in numbers + [sum(numbers)] * several]))
    return lines


def row(cells):
    return "| %s |" % " | ".join(cells)


def by_number(kind):
    """Kinds that end in a number come in its order."""
    number = re.search(r"\d+$", kind)
    return int(number.group()) if number else 0, kind


def first_number(kind):
    return int(kind.split(" ")[0]), kind


FORMS = {"none": "none of the three", "v": "`.varnames`", "o": "`.orderedvarnames`", "s": "`.suppvarnames`", "vo": "`.varnames`, `.orderedvarnames`",
         "vs": "`.varnames`, `.suppvarnames`", "os": "`.orderedvarnames`, `.suppvarnames`", "vos": "all three"}


def coverage_text(cases):
    order = list(FORMS)
    with_file = [c for c in cases if c.has_file]
    lines = ["# What the stored cases cover", "",
             "Made by `make cases ORACLE=DIR`; see `tests/README.md`. A number is how many cases of a replay have what the line says.",
             "", "A case is judged by the Rust where the Rust gave the answer that is stored (for an export that is refused: an error), else by",
             "documents 01 and 02 alone, with a reason."]
    lines += table("Judges", "judge", cases, lambda c: [c.judge])
    lines += table("Cases that the documents judge alone, by reason", "reason", (c for c in cases if c.judge == DOCUMENT), lambda c: [c.reason])
    used = {c.reason for c in cases}
    lines += ["", "What the reasons are; letters with a number are entries of `docs/DIFFERENCES.md`:", ""]
    lines += ["- %s: %s" % x for x in sorted(REASONS.items()) if x[0] in used]
    lines += table("Accepted and refused", "answer", cases, lambda c: ["accepted" if c.refusal == "0" else "refused"])
    lines += table("Answers", "refusal, 0 for none", cases, lambda c: [(int(c.refusal), c.refusal)])
    lines += table("Answers that the Rust gave too", "refusal, 0 for none", (c for c in cases if c.judge == RUST), lambda c: [(int(c.refusal), c.refusal)])
    lines += ["", "The following counts are of the cases that have a file: those of `header` and `loads`, and of `exports` and",
              "`large` those that are written."]
    lines += table("Keys", "key", with_file, lambda c: [(KEYS.index(k), "`%s`" % k) for k in c.keys])
    lines += table("Mode", "`.mode`", with_file, lambda c: [c.mode])
    lines += table("Version", "`.ver`", with_file, lambda c: [c.version])
    lines += table("Lists of variable names", "not empty", with_file, lambda c: [(order.index(c.names), FORMS[c.names])])
    lines += ["", "Next, what the nodes of exported files in binary have: how many files have a node line with this code for its variable, then or",
              "else; a number of so many 7-bit groups there; some numbers at which groups or limits end; bytes that are written with an escape.",
              "The smaller of a child's number and its distance is written: numbers of three groups are in files of more than 32,767 nodes alone."]
    lines += table("Nodes in binary", "has", (c for c in cases if c.met), lambda c: c.met)
    lines += ["", "The kinds of files in `loads`: `vectors` and `room` are those of `tests/vectors`; of the generated ones `whole` was made to be",
              "read by document 01, `made to meet N` to meet that refusal, `made` for a place between, `damaged` at random in the way that is",
              "named, and `short` has every short text of a small alphabet in that place."]
    lines += table("Kinds of loads", "kind", (c for c in cases if c.replay == "loads"), lambda c: [by_number(c.kind)])
    lines += table("Kinds of headers", "kind", (c for c in cases if c.replay == "header"), lambda c: [c.kind])
    lines += table("Sizes of large exports", "size", (c for c in cases if c.replay == "large"), lambda c: [first_number(c.kind)])
    lines += table("Kinds of stores", "kind", (c for c in cases if c.replay == "store"), lambda c: [c.kind])
    lines += table("Readers", "reader", (c for c in cases if c.replay == "readers"), lambda c: [c.kind])
    return "".join(line + "\n" for line in lines)


# What was made, and what stands in the repository ------------------------------------------------------------------------------


def expected_output(path, count, false):
    """A replay's expected output with these numbers of cases."""
    with open(path, encoding="ascii") as f:
        lines = f.read().split("\n")
    lines[0] = "cases.bin: %d cases, 0 differ" % count
    lines[1] = "falsified.bin: %d cases, %d differ" % (false, false)
    return "\n".join(lines)


def placed(cases, false):
    """Where each file belongs, and what was made for it."""
    files = {}
    for replay, (place, output) in PLACES.items():
        for name in DATA:
            with open(os.path.join(OUT, replay, name), "rb") as f:
                files[place + name] = f.read()
        count = sum(c.replay == replay for c in cases)
        files[output] = expected_output(output, count, false[replay]).encode()
    files.update((os.path.join(RECODED, name), content(os.path.join(OUT, "recoded", name))) for name in sorted(os.listdir(FILES)))
    files.update(("tests/vectors/02/" + name, content(os.path.join(OUT, "02", name))) for name in TABLES)
    files["tests/cases/INDEX.tsv"] = index_text(cases).encode()
    files["tests/cases/COVERAGE.md"] = coverage_text(cases).encode()
    return files


def content(path):
    try:
        with open(path, "rb") as f:
            return f.read()
    except FileNotFoundError:
        return None


def install(files):
    for path, data in files.items():
        with open(path, "wb") as f:
            f.write(data)


def totals(cases):
    for replay in REPLAYS:
        those = [c for c in cases if c.replay == replay]
        print("%-8s %6d cases, %6d judged by the Rust, %6d by the documents alone; %6d accepted, %6d refused" % (
            replay, len(those), sum(c.judge == RUST for c in those), sum(c.judge == DOCUMENT for c in those),
            sum(c.refusal == "0" for c in those), sum(c.refusal != "0" for c in those)))
    print("%-8s %6d cases, %6d judged by the Rust" % ("all", len(cases), sum(c.judge == RUST for c in cases)))


def report(cases, files, same):
    print("\n" + files["tests/cases/COVERAGE.md"].decode())
    few = {path: is_same for path, is_same in same.items() if not (is_same and path.startswith(RECODED))}
    for path, is_same in few.items():
        print("%s: %s, %d bytes" % (path, "as it stands in the repository" if is_same else "ANOTHER ONE stands in the repository", len(files[path])))
    print("%s: %d files as they stand in the repository" % (RECODED, len(same) - len(few)))
    totals(cases)


def main():
    if len(sys.argv) not in (2, 3) or sys.argv[2:] not in ([], ["install"]):
        sys.exit("usage: make.py ORACLE [install]")
    started, source = time.monotonic(), os.path.abspath(sys.argv[1])
    os.chdir(ROOT)
    print("the Rust is compiled in %s" % RUST_FOLDER, flush=True)
    oracle.build(source, RUST_FOLDER)
    generate()
    false = make()
    cases = known()
    files = placed(cases, false)
    same = {path: content(path) == data for path, data in files.items()}
    report(cases, files, same)
    print("%.0f seconds" % (time.monotonic() - started))
    if sys.argv[2:]:
        install(files)
        print("put in place")
    elif not all(same.values()):
        sys.exit("%d of %d files differ" % (sum(not x for x in same.values()), len(same)))


main()
