"""Exported files by documents 01 and 02, written out plainly: which nodes have a line, in which order, and the bytes.

Nodes are a dict from number to (level, then, else); the terminal is number 1, and isn't in it. Nothing here is taken from the library, nor from
the Rust but for its choice among the codes of a binary line (export.rs, `bin_idx` and where `var_code` is set), which document 01 leaves to it.
"""
from binary import Nodes

WORDS = {0x00: b"\x00\x00", 0x0a: b"\x00\x01", 0x0d: b"\x00\x02", 0x1a: b"\x00\x03"}


# The order ---------------------------------------------------------------------------------------------------------------------


def way(nodes, edge):
    """All nodes that a walk from an edge meets, each as often as it is met: a node before its children, all under then before all under else."""
    n = abs(edge)
    return [1] if n == 1 else [n] + way(nodes, nodes[n][1]) + way(nodes, nodes[n][2])


def first_stays(numbers):
    """Of equal entries the first one stays."""
    return [n for k, n in enumerate(numbers) if n not in numbers[:k]]


def by_first_meeting(nodes, roots):
    """The definition, word by word: the ways of all roots in their order, of equal nodes the first."""
    return first_stays([n for root in roots for n in way(nodes, root)])


def go_on(nodes, root, met):
    """Adds what a walk from a root meets to what was met before, a dict in the order of meeting. A node that was met isn't entered again."""
    ahead = [abs(root)]
    while ahead:
        n = ahead.pop()
        if n not in met:
            met[n] = True
            ahead += [] if n == 1 else [abs(nodes[n][2]), abs(nodes[n][1])]


def by_marks(nodes, roots):
    """The same list, for large files, whose ways are too many to list."""
    met = {}
    for root in roots:
        go_on(nodes, root, met)
    return list(met)


def deepest_first(nodes, numbers):
    """The terminal, then the deepest level; inside a level the order stays (`sorted` keeps it)."""
    return sorted(numbers, key=lambda n: (n != 1, -nodes[n][0] if n != 1 else 0))


# Node lines --------------------------------------------------------------------------------------------------------------------


def renumbered(new, edge):
    return new[abs(edge)] * (-1 if edge < 0 else 1)


def numbered(nodes, order):
    """The lines in this order, as (position, then, else) by their new numbers, None for the terminal; and the new numbers. Here nodes have
    their positions in place of their levels."""
    new = {n: k for k, n in enumerate(order, 1)}
    return [None if n == 1 else (nodes[n][0],) + tuple(renumbered(new, x) for x in nodes[n][1:]) for n in order], new


def text_nodes(lines):
    return b"".join(b"%d T 0 0\n" % n if line is None else b"%d %d %d %d\n" % ((n,) + line) for n, line in enumerate(lines, 1))


def escaped(data):
    return b"".join(WORDS.get(byte, bytes([byte])) for byte in data)


def seven_bits(value):
    """A number in groups of 7 bits, highest first; bit 0 says that there are more."""
    groups = [value % 128 * 2]
    while value >= 128:
        value //= 128
        groups.insert(0, value % 128 * 2 + 1)
    return bytes(groups)


def coded(distance, value):
    """The code, and the number that follows: 3 for one before, 2 for the distance where that is less than the number itself, else 1."""
    if distance == 1:
        return 3, b""
    return (2, seven_bits(distance)) if distance < value else (1, seven_bits(value))


def coded_child(number, child):
    return (0, b"") if abs(child) == 1 else coded(number - abs(child), abs(child))


def coded_variable(lines, position, children):
    below = [lines[abs(x) - 1][0] for x in children if lines[abs(x) - 1] is not None]
    return coded(min(below) - position, position) if below else (1, seven_bits(position))


def binary_line(lines, number, line):
    if line is None:
        return escaped(b"\x00")
    position, then, els = line
    (v, a), (t, b), (e, c) = coded_variable(lines, position, (then, els)), coded_child(number, then), coded_child(number, els)
    return escaped(bytes([v << 5 | t << 3 | (els < 0) << 2 | e]) + a + b + c)


def binary_nodes(lines):
    return b"".join(binary_line(lines, n, line) for n, line in enumerate(lines, 1))


# Whole files -------------------------------------------------------------------------------------------------------------------


def words(key, values):
    """A line of a header."""
    return b" ".join([key] + [x if isinstance(x, bytes) else b"%d" % x for x in values]) + b"\n"


def name_lines(version, names, support, order):
    """The variables' names; `order` has the level of each variable, `support` the variables that have one."""
    by_level = [names[order.index(level)] for level in range(len(order))]
    return (words(b".varnames", names) if version == 3 else b"") + words(b".suppvarnames", [names[v] for v in support]) \
        + words(b".orderedvarnames", by_level)


def exported(nodes, roots, order, text=True, version=2, names=None, rootnames=(), dd=b"", meeting=by_first_meeting):
    """The file of these roots. `names` is None for no names of variables."""
    met = meeting(nodes, roots)
    levels = sorted({nodes[n][0] for n in met if n != 1})
    placed = {n: (levels.index(nodes[n][0]),) + nodes[n][1:] for n in met if n != 1}
    lines, new = numbered(placed, deepest_first(placed, met))
    support = [v for v, level in enumerate(order) if level in levels]
    head = b".ver DDDMP-%d.0\n.mode %s\n.varinfo 4\n" % (version, b"A" if text else b"B") + (b".dd " + dd + b"\n" if dd else b"")
    head += b".nnodes %d\n.nvars %d\n.nsuppvars %d\n" % (len(lines), len(order), len(support))
    head += b"" if names is None else name_lines(version, names, support, order)
    head += words(b".ids", support) + words(b".permids", [order[v] for v in support])
    head += b".nroots %d\n" % len(roots) + words(b".rootids", [renumbered(new, x) for x in roots])
    head += words(b".rootnames", rootnames) if rootnames else b""
    return head + b".nodes\n" + (text_nodes(lines) if text else binary_nodes(lines)) + b".end\n"


# Files that another exporter wrote ---------------------------------------------------------------------------------------------


def read_text(body, count):
    rows = [line.split(b" ") for line in body.split(b"\n")[:count]]
    assert all(int(row[0]) == n for n, row in enumerate(rows, 1)), "a line has another number"
    return [None if row[1] == b"T" else tuple(map(int, row[1:])) for row in rows]


def taken_apart(file):
    """A file as an exporter writes it: the lines of its header, its roots, its node lines as `numbered` gives them, and whether it is text."""
    head, _, body = file.partition(b"\n.nodes\n")
    head = head.split(b"\n")
    said = dict(line.partition(b" ")[::2] for line in head)
    count, text = int(said[b".nnodes"]), said[b".mode"] == b"A"
    lines = read_text(body, count) if text else Nodes(file, len(file) - len(body), count).nodes
    return head, [int(x) for x in said[b".rootids"].split()], lines, text


def put_together(head, roots, nodes, order, text):
    lines, new = numbered(nodes, order)
    head = [words(b".rootids", [renumbered(new, x) for x in roots])[:-1] if x.startswith(b".rootids") else x for x in head]
    return b"\n".join(head) + b"\n.nodes\n" + (text_nodes(lines) if text else binary_nodes(lines)) + b".end\n"


def rearranged(file, arrange):
    """The file with the lines of each level in another order: `arrange` gives it, of nodes and roots, as by_first_meeting does. Nothing else is
    mended: a file stops the program that isn't written as its own lines are, or not deepest level first, or has a line that isn't reached."""
    head, roots, lines, text = taken_apart(file)
    own, nodes = list(range(1, len(lines) + 1)), {n: line for n, line in enumerate(lines, 1) if n > 1}
    assert put_together(head, roots, nodes, own, text) == file, "the lines are written in another way"
    assert deepest_first(nodes, own) == own, "the levels aren't deepest first"
    order = deepest_first(nodes, arrange(nodes, roots))
    assert sorted(order) == own, "not each line is that of a node that is reached"
    return put_together(head, roots, nodes, order, text)


def other_way_round(nodes, roots):
    return by_marks(nodes, roots)[::-1]


def in_order(file):
    """A file of the Rust with its lines of one level in the order of first meeting. In the Rust that order follows a hash map, so its files are
    compared in this form: up to the order inside a level, and byte for byte in all else. The stand-in manager that the Rust is run over keeps
    the order of first meeting by itself, which says nothing of the Rust; so the step is tried on the file in another order too."""
    ordered = rearranged(file, by_marks)
    assert rearranged(rearranged(file, other_way_round), by_marks) == ordered, "another order inside a level gives another file"
    return ordered
