"""Rules with holes, such as `support < ?quorum`, and what fills them; all_sizes.py uses it."""
import itertools
import re

HOLE = re.compile(rb"\?([A-Za-z_][A-Za-z0-9_]*)")
CODE = re.compile(rb"^[^#\n]*", re.M)


def holes_of(text):
    """The names of the holes in a rule's text, in the order in which they come."""
    return list(dict.fromkeys(name.decode() for code in CODE.findall(text) for name in HOLE.findall(code)))


def filled(text, terms):
    """The text with a term for each name of a hole."""
    put = lambda hole: f"({terms[hole[1].decode()]})".encode()
    return CODE.sub(lambda code: HOLE.sub(put, code[0]), text)


def quorums():
    """The sums of n, f and 1 that a hole is tried with: a * n + b * f + c for small a, b and c."""
    faults = {0: "", 1: "f", 2: "2 * f", 3: "3 * f"}
    for nodes, some, more in itertools.product(("", "n"), range(-3, 4), (-1, 0, 1)):
        if (some > 0) == bool(nodes) or not (nodes or some):
            continue
        term = f"n - {faults[-some]}" if nodes and some else nodes or faults[some]
        yield term + {-1: " - 1", 0: "", 1: " + 1"}[more]


def sketches(text, terms):
    """Each choice of terms for the holes of a text, with the text that it makes."""
    names = holes_of(text)
    for chosen in itertools.product(*(terms.get(it) or list(quorums()) for it in names)):
        choice = dict(zip(names, chosen))
        yield choice, filled(text, choice)
