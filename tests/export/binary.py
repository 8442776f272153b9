"""Reads the nodes of a file in binary, and counts what they have: the codes of variable, then and else, the numbers, and the escapes."""

CODES = ("terminal", "absolute", "relative", "one before")
WHOLE = {0: 0x00, 1: 0x0a, 2: 0x0d, 3: 0x1a}  # document 01: bytes 00, 0a, 0d, 1a are written 00 00, 00 01, 00 02, 00 03
PARTS = ("variable", "then", "else")


class Nodes:
    """The bytes after `.nodes`' line, taken apart line by line. `has` is the set of what was met, `nodes` has each line as (position, then,
    else), or None for the terminal."""

    def __init__(self, file, at, count):
        self.file, self.at, self.has, self.nodes = file, at, set(), []
        for _ in range(count):
            self.line()
        assert file[self.at:] == b".end\n", file[self.at:self.at + 20]

    def byte(self, where):
        byte = self.file[self.at]
        self.at += 1
        if byte == 0:
            byte = WHOLE[self.file[self.at]]
            self.at += 1
            self.has.add("escape: %02x in %s" % (byte, where))
        return byte

    def number(self, what):
        value, groups = 0, 0
        while True:
            byte = self.byte("a number")
            value, groups = value * 128 + byte // 2, groups + 1
            if byte % 2 == 0:
                break
        self.has.add("group: %s of %s" % (what, {1: "one group", 2: "two groups"}.get(groups, "three groups or more")))
        if value in (127, 128, 16383, 16384):
            self.has.add("value: %s %d" % (what, value))
        return value

    def line(self):
        code = self.byte("a code")
        codes = [CODES[code >> shift & 3] for shift in (5, 3, 0)]
        if codes[0] == "terminal":
            self.has.add("code: variable terminal")
            self.nodes.append(None)
            return
        for part, said in zip(PARTS, codes):
            self.has.add("code: %s %s" % (part, said))
        said = [self.number("%s %s" % x) if x[1] in ("absolute", "relative") else 1 for x in zip(PARTS, codes)]
        self.has.add("code: else turned over" if code & 4 else "code: else not turned over")
        self.nodes.append(self.meant(codes, said, code & 4 != 0))

    def meant(self, codes, said, turned):
        """A line by what its codes and numbers stand for. No exporter writes a relative variable over two terminals."""
        number = len(self.nodes) + 1
        then, els = (number - n if code in ("relative", "one before") else n for code, n in zip(codes[1:], said[1:]))
        below = [self.nodes[n - 1][0] for n in (then, els) if self.nodes[n - 1] is not None]
        return said[0] if codes[0] == "absolute" else min(below) - said[0], then, -els if turned else els


def met(file):
    """What the nodes of an exported file have; nothing for a file of text."""
    head, _, _ = file.partition(b".nodes\n")
    said = dict(line.partition(b" ")[::2] for line in head.split(b"\n"))
    if said.get(b".mode") != b"B":
        return set()
    return Nodes(file, len(head) + len(b".nodes\n"), int(said[b".nnodes"])).has
