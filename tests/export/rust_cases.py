#!/usr/bin/env python3
"""Makes export cases whose answers the Rust gives, and asks the Rust about the stored ones.

    python3 rust_cases.py ORACLE GENERATED LOAD FILES EXPORT OUTDIR

ORACLE is the folder of the compiled Rust: its program, target/release/oracle, imports a file and exports it again, and its model.py loads a
file by documents 01 and 02, which gives the store to export from. GENERATED is a folder of files with a list of export commands, export.txt, that
ORACLE's gen.py makes; LOAD and FILES are a list of loads and the folder of their files, as tests/vectors/README.md describes them: each
file that is accepted is exported in both modes and versions, with other variable orders and names each time.

Left out of these are lenient exports, files outside the comparison (lines whose children became one edge, where model.py and the Rust number
nodes differently), and exports with some unnamed variables, which the Rust writes without names and document 01 refuses.

EXPORT is a list of exports from given stores, as tests/vectors/README.md describes it. Each that document 01 writes or refuses for a name
is put to the Rust, which reads the store from a file; the Rust must write the same file up to the order inside a level, or return an error
where document 01 refuses.

Document 02 fixes the order of lines inside a level; in the Rust it follows a hash map. So the Rust is matched up to that order: its lines of
one level are brought into the order of first meeting (`in_order` of lines.py) before its file is compared or stored.

Two lists are written to OUTDIR: stored.tsv, which is EXPORT, and generated.tsv. Both have a case a line, in the columns that make_cases.py
describes. The same files give the same lists.
"""
import os
import random
import sys
import tempfile

sys.path.insert(0, os.path.join(os.path.dirname(os.path.abspath(__file__)), "..", "cases"))
import oracle  # noqa: E402
from lines import in_order  # noqa: E402
from record import DOCUMENT, RUST  # noqa: E402

BUCKETS = 256
NAMES = ["gate", "dock", "yard", "a", "b1", "x_2", "_", "\u00fc", "\u2603x", "T", "0", "-1", ".end", "A" * 255]


def linked(nodes, slots):
    """The links and heads of the nodes from number 2 on, by document 01, 'Store and meaning'."""
    nexts, heads = [0] * slots, [0] * BUCKETS
    for n, (level, then, els) in enumerate(nodes, 2):
        b = (level + 3 * then + 5 * els) % 2 ** 32 % 256
        nexts[n - 1], heads[b] = heads[b], n
    return nexts, heads


def listed(values):
    return ",".join(map(str, values)) or "-"


def named(names):
    """A list of names in hexadecimal; None for no list."""
    return "-" if not names else ",".join(n or "empty" for n in names)


def words(command):
    """The options of an export command."""
    out, w, i = {}, command.split(" "), 2
    while i < len(w):
        if w[i] in ("--lenient", "--keep-names", "--empty-root-names"):
            out[w[i]] = True
            i += 1
        else:
            out[w[i]] = w[i + 1]
            i += 2
    return out


def of_loads(rng, load, folder):
    """Export commands for the accepted files of LOAD, as (file, levels, level list, command)."""
    with open(load) as f:
        for line in f:
            file, levels, level_list, _, refusal, _, roots, _, _ = line.rstrip("\n").split("\t")
            path = os.path.join(folder, file)
            if refusal != "0" or os.path.getsize(path) > 3000:
                continue
            n, m = int(levels), 0 if roots == "-" else len(roots.split(","))
            for mode in "AB":
                for version in "23":
                    order = list(range(n))
                    rng.shuffle(order)
                    c = ["export", path, "--levels", str(n), "--levels-list", ",".join(level_list.replace("-", "").split(",")) or ","]
                    c += ["--mode", mode, "--version", version, "--var-to-level", ",".join(map(str, order)) or ","]
                    if n and rng.random() < 0.6:
                        c += ["--var-names-hex", ",".join((rng.choice(NAMES[:-1]) + str(i)).encode().hex() for i in range(n))]
                    if m and rng.random() < 0.6:
                        c += ["--root-names-hex", ",".join(rng.choice(NAMES).encode().hex() for _ in range(m))]
                    if rng.random() < 0.4:
                        c += ["--dd-hex", rng.choice(["plan", "a b", " a ", "\u2603", "  "]).encode().hex()]
                    yield " ".join(c)


def whole_store(columns):
    """A file of text that holds just this store's nodes, with these roots."""
    levels, count = int(columns[0]), int(columns[1])
    level, then, els = (x.split(",") for x in columns[2:5])
    every = " ".join(map(str, range(levels)))
    roots = columns[8].replace("-", "", columns[8] == "-").replace(",", " ")
    lines = [".mode A", ".nnodes %d" % count, ".nvars %d" % levels, ".nsuppvars %d" % levels, ".ids " + every, ".permids " + every,
             ".nroots %d" % len(roots.split()), ".rootids " + roots, ".nodes", "1 T 0 0"]
    lines += ["%d %s %s %s" % (n + 1, level[n], then[n], els[n]) for n in range(1, count)]
    return "".join(line + "\n" for line in lines + [".end"]).encode()


def given(option, column):
    return [] if column == "-" else [option, column.replace("empty", "")]


def export_command(name, columns):
    order = "," if columns[9] == "-" else columns[9]
    return " ".join(["export", name, "--levels", columns[0], "--mode", columns[10], "--version", columns[11], "--var-to-level", order]
                    + given("--var-names-hex", columns[12]) + given("--root-names-hex", columns[13]) + given("--dd-hex", columns[14]))


def name_texts(column):
    return [] if column == "-" else [b"" if x == "empty" else bytes.fromhex(x) for x in column.split(",")]


def are_texts(columns):
    """Whether the Rust can be lent these names: texts, one for each variable and root."""
    variables, roots, dd = (name_texts(x) for x in columns[12:15])
    wanted = 0 if columns[8] == "-" else len(columns[8].split(","))
    try:
        [x.decode("utf-8") for x in variables + roots + dd]
    except UnicodeDecodeError:
        return False
    return len(variables) in (0, int(columns[0])) and len(roots) in (0, wanted)


def written(answer):
    """The file that the Rust wrote, its lines of one level in the order of first meeting."""
    return in_order(bytes.fromhex(answer[1][len("bytes "):]))


def judge(columns, answer):
    """Who judges an export that was put to the Rust, and why. Stops where the Rust differs in a way that has no entry."""
    variables, roots, dd = (name_texts(x) for x in columns[12:15])
    if columns[17] == "0":
        assert answer[0] == "ok" and written(answer).hex() == columns[18], (columns, answer)
        return [RUST, "-"]
    if answer[0].startswith("err export InvalidInput"):
        return [RUST, "-"]
    assert answer[0] == "ok", (columns, answer)
    if any(len(x) > 255 for x in variables + roots + dd):
        return [DOCUMENT, "long name"]
    assert b"" in variables, (columns, answer)
    return [DOCUMENT, "some unnamed"]


def of_stored(program, table):
    """The lines of EXPORT, each with its source, judge and reason."""
    with open(table) as f:
        rows = [line.rstrip("\n").split("\t") for line in f]
    asked = [x for x in rows if x[17] == "0" or x[17] == "5" and are_texts(x)]
    with tempfile.TemporaryDirectory() as folder:
        commands = []
        for n, x in enumerate(asked):
            with open(os.path.join(folder, str(n)), "wb") as f:
                f.write(whole_store(x))
            commands.append(export_command(str(n), x))
        said = iter(oracle.answers(program, commands, folder))
    why = {"1": "lent parts", "3": "lent parts", "4": "typed values", "5": "names as places", "6": "typed values"}
    for n, x in enumerate(rows, 1):
        yield x + ["vectors/export.tsv %d" % n] + (judge(x, next(said)) if x in asked else [DOCUMENT, why[x[17]]])


def source(path, files):
    folder, name = os.path.split(path)
    return "vectors/" + name if folder == files else os.path.basename(folder) + "/" + name.split(".")[0]


def write(folder, name, rows):
    with open(os.path.join(folder, name), "w") as f:
        f.write("".join("\t".join(map(str, row)) + "\n" for row in rows))


def main():
    folder, generated, load, files, stored, outdir = [os.path.abspath(x) for x in sys.argv[1:]]
    program = oracle.program(folder)
    model = oracle.reading(folder)
    rng = random.Random(20261115)
    with open(os.path.join(generated, "export.txt")) as f:
        commands = [line.rstrip("\n") for line in f if line.startswith("export ")]
    commands += list(of_loads(rng, load, files))
    left, rows = {}, []
    for command, answer in zip(commands, oracle.answers(program, commands, generated)):
        o = words(command)
        path = os.path.join(generated, command.split(" ")[1])
        levels = int(o["--levels"])
        level_list = o.get("--levels-list")
        if level_list is not None:
            level_list = [int(x) for x in level_list.split(",") if x]
        m = model.load(open(path, "rb").read(), levels, level_list)
        order = [int(x) for x in o["--var-to-level"].split(",") if x] if "--var-to-level" in o else list(range(levels))
        variables = o["--var-names-hex"].split(",") if "--var-names-hex" in o else []
        roots = o["--root-names-hex"].split(",") if "--root-names-hex" in o else []
        dd = o.get("--dd-hex", "")
        why = None
        if "--lenient" in o:
            why = "lenient"
        elif "refused" in m or m.get("outside"):
            why = "outside the comparison"
        elif len(m["nodes"]) > 400 or levels > 300:
            why = "large"
        elif variables and "" in variables:
            why = "unnamed variables"
        elif answer[0] != "ok" and not answer[0].startswith("err export InvalidInput"):
            why = answer[0]
        if why:
            left[why] = left.get(why, 0) + 1
            continue
        count = len(m["nodes"]) + 1
        slots = count + rng.choice((0, 0, 1, 5))
        lists = [[0] + [x[i] for x in m["nodes"]] + [0] * (slots - count) for i in range(3)]
        nexts, heads = linked(m["nodes"], slots)
        size = 256 + 32 * count + 24 * levels + 16 * len(m["edges"])
        size += 3 * sum(len(x) // 2 for x in variables) + sum(len(x) // 2 for x in roots) + len(dd) // 2
        data = written(answer) if answer[0] == "ok" else b""
        row = [levels, count, *map(listed, lists), listed(nexts), BUCKETS]
        row += [",".join("%d:%d" % x for x in enumerate(heads) if x[1]) or "-", listed(m["edges"]), listed(order)]
        row += [o.get("--mode", "B"), o.get("--version", "2"), named(variables), named(roots), dd or "-"]
        row += [size + rng.choice((0, 0, 1, 7)), count + rng.choice((0, 0, 3)), 0 if answer[0] == "ok" else 5, data.hex() or "-"]
        row += [source(path, files), RUST, "-"]
        rows.append(row)
    write(outdir, "stored.tsv", of_stored(program, stored))
    write(outdir, "generated.tsv", rows)
    print("%d cases; left out: %s" % (len(rows), ", ".join("%s %d" % x for x in sorted(left.items()))))


if __name__ == "__main__":
    main()
