#!/usr/bin/env python3
"""Whether a log refutes a formula, judged by itself: each of its clauses follows, and the last is empty.

    logs.py FORMULA PROOF

FORMULA is in the DIMACS format, and PROOF has a clause a line, as a DRAT proof without deletions has. A clause follows from the
formula and the clauses before it where setting all its literals false, and then what each clause forces, makes some clause
false. The script says for each clause whether it does, tells the first that does not, and ends with status 0 where the log
refutes the formula, and else with 1.

Clauses are looked at through two of their literals, as solvers do. Nothing here comes from the proved checker.
"""
import sys


def clauses_in(words):
    """The clauses that words spell, each ended by 0."""
    found, clause = [], []
    for word in words:
        number = int(word)
        if number:
            clause.append(number)
        else:
            found.append(clause)
            clause = []
    if clause:
        raise ValueError("the last clause does not end")
    return found


def formula_in(text):
    """The clauses of a formula in the DIMACS format, as many as its head says."""
    lines = [line for line in text.split("\n") if not line.startswith("c")]
    head = lines[0].split()
    if head[:2] != ["p", "cnf"] or len(head) != 4:
        raise ValueError("no line p cnf")
    found = clauses_in(" ".join(lines[1:]).split())
    most = max((abs(l) for clause in found for l in clause), default=0)
    if len(found) != int(head[3]) or most > int(head[2]):
        raise ValueError("the head does not fit")
    return found


class Known:
    """Clauses that are known, and what they force without any assumption. Variables are numbered as they are met."""

    def __init__(self, clauses):
        self.numbers, self.values, self.watches, self.trail = {}, [], [], []
        self.seen = 0  # how many literals of the trail were followed
        self.is_refuted = False
        for clause in clauses:
            self.add(clause)

    def literal(self, number):
        """Twice the number of its variable, and one more for a negation."""
        at = self.numbers.setdefault(abs(number), len(self.numbers))
        if at == len(self.values) >> 1:
            self.values += [None, None]
            self.watches += [[], []]
        return at * 2 + (number < 0)

    def put(self, l):
        self.values[l], self.values[l ^ 1] = True, False
        self.trail.append(l)

    def add(self, numbers):
        """Adds a clause, and follows what it forces."""
        clause = list(dict.fromkeys(map(self.literal, numbers)))
        if any(self.values[l] for l in clause) or any(l ^ 1 in clause for l in clause):
            return
        clause.sort(key=lambda l: self.values[l] is False)
        if not clause or self.values[clause[0]] is False:
            self.is_refuted = True
        elif len(clause) == 1 or self.values[clause[1]] is False:
            self.put(clause[0])
            self.is_refuted = self.is_refuted or self.clashes()
        else:
            self.watches[clause[0]].append(clause)
            self.watches[clause[1]].append(clause)

    def clashes(self):
        """Whether following the trail makes some clause false."""
        values, trail = self.values, self.trail
        while self.seen < len(trail):
            false = trail[self.seen] ^ 1
            self.seen += 1
            watching = self.watches[false]
            self.watches[false] = kept = []
            for at, clause in enumerate(watching):
                if clause[0] == false:
                    clause[0], clause[1] = clause[1], false
                if values[clause[0]]:
                    kept.append(clause)
                    continue
                for k in range(2, len(clause)):
                    if values[clause[k]] is not False:
                        clause[1], clause[k] = clause[k], false
                        self.watches[clause[1]].append(clause)
                        break
                else:
                    kept.append(clause)
                    if values[clause[0]] is False:
                        kept += watching[at + 1 :]
                        return True
                    self.put(clause[0])
        return False

    def follows(self, numbers):
        """Whether a clause follows."""
        if self.is_refuted:
            return True
        clause, length = [self.literal(n) for n in numbers], len(self.trail)
        clash = False
        for l in clause:
            clash = clash or self.values[l] is True
            if self.values[l] is None:
                self.put(l ^ 1)
        clash = clash or self.clashes()
        for l in self.trail[length:]:
            self.values[l] = self.values[l ^ 1] = None
        del self.trail[length:]
        self.seen = length
        return clash


def first_break(clauses, log):
    """The number, from 0, of the first clause of a log that does not follow, its length where the last is not empty, or none."""
    known = Known(clauses)
    for at, clause in enumerate(log):
        if not known.follows(clause):
            return at
        known.add(clause)
    return None if log and not log[-1] else len(log)


def main():
    with open(sys.argv[1]) as formula, open(sys.argv[2]) as proof:
        clauses, log = formula_in(formula.read()), clauses_in(proof.read().split())
    at = first_break(clauses, log)
    if at is None:
        print(f"refuted: {len(log)} clauses follow from {len(clauses)}, and the last is empty")
    else:
        print("not refuted: " + ("the last clause is not empty" if at == len(log) else f"clause {at + 1} of {len(log)} does not follow"))
    return 0 if at is None else 1


if __name__ == "__main__":
    sys.exit(main())
