"""Edge lists with a minus that doesn't touch its digit. Document 02, order 3: a minus that a blank or the end follows is 17, 'found
where the blank or the end stands'. The Rust lets it wait for its digit (N2 of docs/DIFFERENCES.md), so files of this kind leave the
match with it.
"""
import re


def alone(entries):
    """Of an edge list that is refused with 17: is such a minus its fault? Words are judged from left to right, so the fault is in the
    first one that is no entry."""
    wrong = (word for word in re.split(rb"[ \t]+", entries.strip(b" \t")) if not re.fullmatch(rb"-?[0-9]+", word))
    return next(wrong, None) == b"-"


def waiting(entries):
    """What the Rust reads: a minus waits for its digit behind blanks, and is no entry without one. Gives the entries before the fault,
    and the refusal, 0 for none; 15, 16 and 17 else are as document 01 has them."""
    found, at = [], 0
    while True:
        m = re.compile(rb"[ \t]*(-?)[ \t]*([0-9]*)").match(entries, at)
        minus, digits, at = m.group(1), m.group(2), m.end()
        if any(int(digits[:n]) >= 2 ** 63 for n in range(1, len(digits) + 1)):
            return found, 15
        if at < len(entries) and entries[at] not in b" \t":
            return found, 17 if entries[at] == ord("-") else 16
        if not digits:
            return found, 0
        found.append(-int(digits) if minus else int(digits))
