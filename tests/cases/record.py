"""What is known of each stored case: where it comes from, who judged it, and what its file has.

A script that makes cases adds each case to a Record, in the order in which it stores them, and writes the Record beside them as index.tsv,
a case a line: the refusal, the source, the judge, the reason, then for a case with a file its keys, mode, version and lists of names, and
what the nodes of an exported file in binary have.
"""
import os
import re

RUST = "rust"          # the Rust was run, and gave the answer that is stored
DOCUMENT = "document"  # judged by documents 01 and 02 alone; the reason says why

# Why a case isn't compared with the Rust, and the entries of docs/DIFFERENCES.md that say what the Rust does there.
REASONS = {
    "over 64 bits": "N1: the Rust loses bits and reads on",
    "minus alone": "N2: the Rust lets a minus wait for its digit; document 02 refuses it",
    "reserves memory": "H1 to H3: the Rust panics or asks for memory by a number in the file",
    "over a limit": "H4 to H7: the Rust has no limits",
    "not UTF-8": "H8, H9: the Rust mends the text",
    "line left out": "T1, B3, B4: the Rust asks its manager for a level; outside the comparison by document 01",
    "relative variable": "B2: the Rust panics",
    "level list": "L1, L2, L3: the Rust panics, or its manager judges",
    "other terminal": "33: what the Rust accepts depends on the kind of diagram; outside the comparison by document 01",
    "some unnamed": "E1: the Rust writes no name lines",
    "long name": "E5: the Rust has no limit of names",
    "lent parts": "the Rust is lent no such part: lists, scratch, output, a store that isn't empty or breaks its rules",
    "typed values": "4, 6: in the Rust roots and the variable order are values of the manager",
    "names as places": "5: in the Rust a name is a text of its own",
    "store": "the Rust module has no store; OxiDD's managers were not compared",
    "no file shows it": "a step of a reader that no file of its own shows in the Rust's answer",
    "smallest input": "an input of docs/DIFFERENCES.md",
}

KEYS = [".ver", ".mode", ".varinfo", ".dd", ".nnodes", ".nvars", ".nsuppvars", ".nroots", ".ids", ".permids", ".auxids", ".varnames",
        ".orderedvarnames", ".suppvarnames", ".rootids", ".rootnames"]
NAME_FORMS = ((".varnames", "v"), (".orderedvarnames", "o"), (".suppvarnames", "s"))


def header_lines(file):
    """Each line of a header up to `.nodes`, as its key and its value; a rough reading, good enough to count with."""
    for line in file.split(b"\n"):
        words = re.split(rb"[ \t]", line.rstrip(b"\r"), maxsplit=1)
        if words[0] == b".nodes":
            return
        yield words[0].decode("latin-1"), b"".join(words[1:]).strip(b" \t").decode("latin-1")


def features(file):
    """The keys of a file, its mode and version, and which of its three lists of variable names aren't empty."""
    said = dict(header_lines(file))
    mode = said.get(".mode", "missing")
    version = said.get(".ver", "missing").replace("DDDMP-", "")
    return (",".join(k for k in KEYS if k in said) or "-", mode if mode in ("A", "B", "missing") else "other",
            version if version in ("2.0", "3.0", "missing") else "other", "".join(c for k, c in NAME_FORMS if said.get(k)) or "none")


class Record:
    def __init__(self):
        self.rows = []

    def add(self, refusal, source, judge, reason="-", file=None, met=()):
        assert judge == RUST and reason == "-" or reason in REASONS, (judge, reason)
        self.rows.append([str(refusal), source, judge, reason] + list(features(file) if file is not None else "----") + [",".join(sorted(met)) or "-"])

    def write(self, folder):
        with open(os.path.join(folder, "index.tsv"), "w", encoding="utf-8") as f:
            f.write("".join("\t".join(row) + "\n" for row in self.rows))
