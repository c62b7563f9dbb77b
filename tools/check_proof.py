#!/usr/bin/env python3
"""Checks a proof that a formula has no solution: tools/check_proof.py FORMULA PROOF

FORMULA is in the format DIMACS. PROOF is a text in the format DRAT, as `tools/find.py --proof` keeps it. Each clause
of the proof must follow from the formula and the clauses before it by unit propagation alone (RUP), and the last one
is the empty clause. Deletions are ignored: they only save time. A solver's clause that needs the stronger rule RAT is
rejected.
"""
import sys


class Clauses:
    """Clauses with two watched literals each, and the literals that are true."""

    def __init__(self):
        self.true, self.trail, self.watching, self.is_refuted = set(), [], {}, False

    def add(self, clause):
        """Adds a clause for good, with all that follows from it by unit propagation."""
        free = [it for it in clause if -it not in self.true]
        if len(free) > 1:
            clause = [*free, *(it for it in clause if -it in self.true)]
            for literal in clause[:2]:
                self.watching.setdefault(literal, []).append(clause)
        elif not free or not self.assume(free):
            self.is_refuted = True

    def assume(self, literals):
        """Makes literals true, with all that follows. Says whether nothing is both true and false then."""
        head = len(self.trail)
        for literal in literals:
            if -literal in self.true:
                return False
            if literal not in self.true:
                self.true.add(literal)
                self.trail.append(literal)
        while head < len(self.trail):
            if not self.propagate(-self.trail[head]):
                return False
            head += 1
        return True

    def propagate(self, false):
        """Moves the watches of a literal that became false."""
        watching, kept, is_consistent = self.watching.get(false, []), [], True
        for at, clause in enumerate(watching):
            if clause[0] == false:
                clause[0], clause[1] = clause[1], clause[0]
            first = clause[0]
            other = next((it for it in range(2, len(clause)) if -clause[it] not in self.true), None)
            if first not in self.true and other is not None:
                clause[1], clause[other] = clause[other], clause[1]
                self.watching.setdefault(clause[1], []).append(clause)
                continue
            kept.append(clause)
            if -first in self.true:
                kept += watching[at + 1 :]
                is_consistent = False
                break
            if first not in self.true:
                self.true.add(first)
                self.trail.append(first)
        self.watching[false] = kept
        return is_consistent

    def implies(self, clause):
        """Whether unit propagation refutes the negation of the clause."""
        mark = len(self.trail)
        is_consistent = self.assume([-it for it in clause])
        self.true.difference_update(self.trail[mark:])
        del self.trail[mark:]
        return not is_consistent


def clauses_of(lines):
    """The clauses of lines, without comments, the head and deletions."""
    for line in lines:
        if line[:1] not in ("c", "p", "d", "\n"):
            yield [int(it) for it in line.split()[:-1]]


def main(formula, proof):
    clauses, steps = Clauses(), 0
    with open(formula, encoding="ascii") as it:
        for clause in clauses_of(it):
            clauses.add(clause)
    with open(proof, encoding="ascii") as it:
        for steps, clause in enumerate(clauses_of(it), 1):
            if clauses.is_refuted:
                break
            if not clauses.implies(clause):
                print(f"clause {steps} of the proof doesn't follow by unit propagation")
                return 1
            clauses.add(clause)
    print(f"{'verified' if clauses.is_refuted else 'the proof has no empty clause'}: {steps} clauses")
    return 0 if clauses.is_refuted else 1


if __name__ == "__main__":
    if len(sys.argv) != 3 or "--help" in sys.argv:
        sys.exit(__doc__)
    sys.exit(main(*sys.argv[1:]))
