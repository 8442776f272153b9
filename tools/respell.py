#!/usr/bin/env python3
"""Brings the names of the repository's own definitions, fields and constructors to snake case, as today's library spells its own.

usage: python3 tools/respell.py [--list]     at the top of the repository, once, after the toolchain's port.py

A name that specs/ or proofs/ declares is respelled as a whole word, wherever the word stands: in .antt and .rt files, in must-fail edits, and
between backticks in documents. `settingOf` becomes `setting_of`, the field `cache-left` becomes `cache_left`, and in the name of a law each part is
respelled by itself, so that `eqZ-false` becomes `eq_z-false`: there a dash joins two names. Types and modules keep their capitals, and functions,
types and fields of src/ their names. --list prints the old and new names, and those that would fall together with another word, and writes nothing.
"""
import glob
import os
import re
import sys

WORD = r"[^\s(){}\[\];,.@\"`\\|«»]+"
MODIFIERS = r"(?:(?:pattern|unfoldable|abbrev|pub|axiom|ghost) )*"
DECLARED = re.compile(r"^( *)%s(data |record |module |mod |use )?(%s)(?=[ {(:])(.*)$" % (MODIFIERS, r"[^\s(){}:]+"))
KEYWORDS = {"use", "where", "let", "in", "unfolding", "data", "record", "module", "mod", "pub", "abbrev", "unfoldable", "elim", "rw", "λ", "_", "ruleset"}
# Where the new spelling alone would make two names one: a definition and a law about it, or a definition and a field.
APART = {
    "of_entry": "of_entry_lem",
    "order_from": "order_from_lem",
    "other_text": "other_text_lem",
    "read_back": "read_back_lem",
    "text_at": "text_at_lem",
    "sameBytes": "are_same_bytes",
    "all-names": "all_names_said",
    "supp-names": "supp_names_said",
    "is-order": "is_an_order",
    "idsLeft": "remaining_ids",
    "names-fit": "names_do_fit",
    "roots-fit": "roots_do_fit",
    "settingLeft": "left_setting",
}
# Parameters and local names with a capital inside.
LOCAL = ["oldLevel", "oldThen", "oldEls", "oldNext", "oldHeads", "oldCount", "thenBy", "elseBy", "isNodes"]
DOCUMENTS = ["README.md", "docs/*.md", "tests/README.md", "tests/vectors/README.md", "tests/cases/*.md"]


def snake(name):
    name = re.sub(r"(?<=[a-z0-9])(?=[A-Z])", "_", name)
    name = re.sub(r"(?<=[A-Z])(?=[A-Z][a-z])", "_", name)
    return name.lower() if name.isascii() else "".join(c.lower() if c.isascii() else c for c in name)


def is_camel(part):
    return bool(re.match(r"[a-z][A-Za-z0-9_']*[A-Z]", part))


def declared(path):
    """The declared names of a file, each with the kind of place: 'value', or 'field' inside a record or a data type."""
    blocks = []
    for line in open(path, encoding="utf-8"):
        if not line.strip() or line.lstrip().startswith("--"):
            continue
        indent = len(line) - len(line.lstrip(" "))
        while blocks and blocks[-1][0] >= indent:
            blocks.pop()
        found = DECLARED.match(line.rstrip("\n"))
        if found:
            _, kind, name, rest = found.groups()
            kind = (kind or "").strip()
            if kind in ("data", "record"):
                blocks.append((indent, kind))
                yield name, "type"
            elif kind == "module" or kind in ("mod", "use"):
                if kind == "module":
                    blocks.append((indent, kind))
            elif name not in KEYWORDS and re.match(r"[^:=]*(\{[^}]*\}|\([^)]*\)|[^:=({])* : ", line.strip() + " "):
                inside = blocks[-1][1] if blocks else "module"
                yield name, "field" if inside in ("data", "record") else "value"


def antt_files():
    return sorted(glob.glob("crates/*/specs/**/*.antt", recursive=True) + glob.glob("crates/*/proofs/**/*.antt", recursive=True))


def new_name(name, kind):
    """The name's new spelling."""
    if kind == "type" or not re.match(r"[a-z]", name):
        return name
    parts = [snake(part) if is_camel(part) else part for part in name.split("-")]
    return ("_" if kind == "field" else "-").join(parts)


def table():
    kinds = {}
    for path in antt_files():
        for name, kind in declared(path):
            kinds.setdefault(name, set()).add(kind)
    names = {}
    for name, of in kinds.items():
        new = new_name(name, "field" if "field" in of else "value" if "value" in of else "type")
        new = APART.get(name, new)
        if new != name:
            names[name] = new
    for name in LOCAL:
        names[name] = snake(name)
        kinds.setdefault(name, {"local"})
    return names, kinds


def texts():
    found = antt_files() + glob.glob("crates/*/src/**/*.rt", recursive=True) + glob.glob("crates/*/must-fail/*.edit")
    return sorted(found)


def respelled(text, names):
    return re.sub(WORD, lambda it: names.get(it[0], it[0]), text)


def respelled_code(text, names):
    """Whole words of the code, and in comments those that can be no English: with a capital inside, or between backticks."""
    camel = {old: new for old, new in names.items() if "-" not in old}
    out = []
    for line in text.split("\n"):
        at = re.search(r"(?:^|\s)(--|//)", line)
        head, tail = (line[: at.start(1)], line[at.start(1):]) if at else (line, "")
        tail = re.sub(r"`[^`]*`", lambda it: respelled(it[0], names), respelled(tail, camel))
        out.append(respelled(head, names) + tail)
    return "\n".join(out)


def main():
    names, kinds = table()
    words = set()
    for path in texts():
        words |= set(re.findall(WORD, open(path, encoding="utf-8").read()))
    falls = {old: new for old, new in names.items() if new in words}
    twice = {}
    for old, new in names.items():
        twice.setdefault(new, []).append(old)
    if "--list" in sys.argv[1:]:
        for old, new in sorted(names.items()):
            note = "   FALLS ON A WORD" if old in falls else ""
            note += "   TWICE" if len(twice[new]) > 1 else ""
            print(f"{old}\t{new}\t{'/'.join(sorted(kinds[old]))}{note}")
        print(len(names), "names,", len(falls), "fall on a word in use")
        return
    for path in texts():
        text = open(path, encoding="utf-8").read()
        now = respelled_code(text, names) if path.endswith((".antt", ".rt")) else respelled(text, names)
        if now != text:
            open(path, "w", encoding="utf-8").write(now)
    for pattern in DOCUMENTS:
        for path in glob.glob(pattern):
            text = open(path, encoding="utf-8").read()
            now = re.sub(r"`[^`\n]+`", lambda it: respelled(it[0], names), text)
            if now != text:
                open(path, "w", encoding="utf-8").write(now)


if __name__ == "__main__":
    main()
