#!/usr/bin/env python3
"""Writes the formulas of the solver's bench, in the DIMACS format, to a folder.

    formulas.py FOLDER [COUNT]

The families, of which docs/PERFORMANCE.md says more: random 3-SAT (COUNT of each size, 20 if left out), pigeons, parity
chains, parity on graphs, counters, sorters of bits, sums and products in two orders, squares, divisions, and formulas over
graphs of expressions in this project's encoding. Each random choice comes from a fixed seed, so every run writes the same
files. A name is FAMILY-MORE.cnf.
"""

import random
import sys
from pathlib import Path

from encoding import Gates, constant, input_word, neg

RATIO = 4.26
SIZES = (150, 200, 250)
HOLES = (7, 8, 9, 10)
CHAINS = (10, 14, 18, 22)


def random_3sat(variables, seed):
    """Clauses of three different variables, each negated at even odds."""
    rng = random.Random(f"3sat {variables} {seed}")
    return [
        [v if rng.random() < 0.5 else -v for v in rng.sample(range(1, variables + 1), 3)]
        for _ in range(round(RATIO * variables))
    ]


def pigeons(holes):
    """One pigeon more than there are holes, each in a hole, no two in one."""
    sits = lambda pigeon, hole: pigeon * holes + hole + 1
    birds = range(holes + 1)
    each = [[sits(p, h) for h in range(holes)] for p in birds]
    apart = [[-sits(p, h), -sits(q, h)] for h in range(holes) for q in birds for p in range(q)]
    return each + apart


def odd(a, b, c):
    """Of the three literals an odd number is true."""
    return [[a, b, c], [a, -b, -c], [-a, b, -c], [-a, -b, c]]


def parity_chain(length, seed, same):
    """The parity of the variables, added up along two chains in two orders: equal at the ends, or different."""
    rng = random.Random(f"parity {length} {seed}")
    clauses = []
    ends = []
    fresh = length
    for _ in range(2):
        order = rng.sample(range(1, length + 1), length)
        total = order[0]
        for v in order[1:]:
            fresh += 1
            clauses += odd(-fresh, total, v)
            total = fresh
        ends.append(total)
    a, b = ends
    return clauses + ([[a, -b], [-a, b]] if same else [[a, b], [-a, -b]])


def regular_graph(vertices, degree, rng):
    """Edges between different vertices, none twice, so many at each vertex."""
    while True:
        ends = [v for v in range(vertices) for _ in range(degree)]
        rng.shuffle(ends)
        edges = {tuple(sorted(pair)) for pair in zip(ends[::2], ends[1::2])}
        if len(edges) == vertices * degree // 2 and all(a != b for a, b in edges):
            return sorted(edges)


def parity_graph(vertices, degree, seed, total):
    """A variable for each edge of a random graph; the parity at each vertex is given, and these add up to `total`."""
    rng = random.Random(f"graph {vertices} {degree} {seed}")
    edges = regular_graph(vertices, degree, rng)
    wanted = [rng.randrange(2) for _ in range(vertices)]
    wanted[0] ^= (sum(wanted) ^ total) & 1
    clauses = []
    for v in range(vertices):
        here = [i + 1 for i, edge in enumerate(edges) if v in edge]
        for signs in range(1 << len(here)):
            if bin(signs).count("1") & 1 != wanted[v]:
                clauses.append([-e if signs >> k & 1 else e for k, e in enumerate(here)])
    return clauses


# ---- circuits


def two_results(gates, first, second, wrong_at, word):
    """Says that two results differ; with `wrong_at` a bit of the second is turned where the word is that number."""
    if wrong_at is not None:
        k = len(second) // 2
        here = gates.equal(word, constant(wrong_at, len(word)))
        second = second[:k] + [gates.differ(second[k], here)] + second[k + 1 :]
    gates.demand(gates.apart(first, second))
    return gates.clauses


def wrong_number(name, bits, off):
    return random.Random(f"{name} {bits}").randrange(1 << bits) if off else None


def adders(bits, off):
    """Four words added up in two orders."""
    gates = Gates()
    a, b, c, d = (gates.word(bits) for _ in range(4))
    first = gates.add(gates.add(gates.add(a, b), c), d)
    second = gates.add(gates.add(d, b), gates.add(c, a))
    return two_results(gates, first, second, wrong_number("adders", bits, off), a)


def multipliers(bits, off):
    """The low bits of the product of two words, in two orders."""
    gates = Gates()
    a, b = gates.word(bits), gates.word(bits)
    return two_results(gates, gates.multiply(a, b), gates.multiply(b, a), wrong_number("multipliers", bits, off), a)


def square_of_sum(bits, off):
    """The square of a sum, and the sum of the squares and twice the product."""
    gates = Gates()
    a, b = gates.word(bits), gates.word(bits)
    total = gates.add(a, b)
    twice = gates.multiply([False] + a[:-1], b)
    second = gates.add(gates.add(gates.multiply(a, a), twice), gates.multiply(b, b))
    return two_results(gates, gates.multiply(total, total), second, wrong_number("squares", bits, off), a)


def two_squares(bits, met):
    """Two words whose squares add up to a given number of twice as many bits: one that is such a sum, or one that is not."""
    gates = Gates()
    a, b = (gates.word(bits) + [False] * bits for _ in range(2))
    rng = random.Random(f"two squares {bits}")
    sums = {x * x + y * y for x in range(1 << bits) for y in range(x, 1 << bits)}
    target = 0
    # of the numbers 4 n + 1, since the low bits alone show that others are no sums
    while target % 4 != 1 or (target in sums) != met:
        target = rng.randrange(1 << (2 * bits - 1), 1 << (2 * bits))
    gates.demand(gates.equal(gates.add(gates.multiply(a, a), gates.multiply(b, b)), constant(target, 2 * bits)))
    return gates.clauses


def divisions(bits, off):
    """A quotient times the divisor and the remainder, and the dividend, where the divisor is not 0."""
    gates = Gates()
    a, b = gates.word(bits), gates.word(bits)
    q, r = gates.divide_from_0(a, b)
    gates.demand(gates.apart(b, constant(0, bits)))
    return two_results(gates, gates.add(gates.multiply(q, b), r), a, wrong_number("divisions", bits, off), a)


def bubbles(n):
    return [(i, i + 1) for last in range(n - 1, 0, -1) for i in range(last)]


def merges(n):
    """Batcher's sorting network by odd-even merges."""
    pairs = []
    p = 1
    while p < n:
        k = p
        while k >= 1:
            for j in range(k % p, n - k, 2 * k):
                for i in range(min(k, n - j - k)):
                    if (i + j) // (2 * p) == (i + j + k) // (2 * p):
                        pairs.append((i + j, i + j + k))
            k //= 2
        p *= 2
    return pairs


def sort_bits(gates, bits, pairs):
    bits = list(bits)
    for i, j in pairs:
        bits[i], bits[j] = gates.either(bits[i], bits[j]), gates.both(bits[i], bits[j])
    return bits


def sorters(n, off):
    """Bits sorted by two networks; `off` leaves a step of the second out."""
    gates = Gates()
    bits = gates.word(n)
    second = merges(n)
    if off:
        second.pop(random.Random(f"sorters {n}").randrange(len(second)))
    gates.demand(gates.apart(sort_bits(gates, bits, bubbles(n)), sort_bits(gates, bits, second)))
    return gates.clauses


def counted(gates, bits, most):
    """Whether at least 1, 2 and so on up to `most` + 1 of the bits are true, counted one after another."""
    row = [False] * (most + 1)
    for bit in bits:
        row = [gates.either(row[j], gates.both(bit, row[j - 1] if j else True)) for j in range(most + 1)]
    return row


def counters(n, most, met):
    """Of the bits at most so many are true, in one order, and more (or as many) in another."""
    gates = Gates()
    bits = gates.word(n)
    order = random.Random(f"counters {n}").sample(bits, n)
    gates.demand(neg(counted(gates, bits, most)[most]))
    gates.demand(counted(gates, order, most)[most - 1 if met else most])
    return gates.clauses


# ---- graphs of expressions, in the encoding of this project


def distributed(width, bits, off):
    """`x * (y + z)` and `x * y + x * z`, over words of which so many bits have leaves."""
    gates = Gates()
    x, y, z = (input_word(gates, bits, width) for _ in range(3))
    first = gates.multiply(x, gates.add(y, z))
    second = gates.add(gates.multiply(x, y), gates.multiply(x, z))
    return two_results(gates, first, second, wrong_number("encoded", bits, off), x)


def element(gates, items, index, low=0):
    """The item that the index names, or the last where it is above them: choices in a tree."""
    if len(items) == 1:
        return items[0]
    half = len(items) // 2
    below = gates.less(index, constant(low + half, len(index)), True)
    return gates.mux(below, element(gates, items[:half], index, low), element(gates, items[half:], index, low + half))


def shifted(gates, bits, by):
    """The bits moved to lower places; zeros come in."""
    row = bits + [False]
    return [element(gates, row[place:], by) for place in range(len(bits))]


def shifts(length, bits, off):
    """A row of bits shifted by a sum, and by one term after the other."""
    gates = Gates()
    width = bits + 2
    row = gates.word(length)
    y, z = (input_word(gates, bits, width) for _ in range(2))
    once = shifted(gates, row, gates.add(y, z))
    twice = shifted(gates, shifted(gates, row, z), y)
    return two_results(gates, once, twice, wrong_number("shifts", length, off), row)


def greatest(gates, words):
    most = words[0]
    for w in words[1:]:
        most = gates.mux_each(gates.less(most, w, True), w, most)
    return most


def choices(count, width, off):
    """The greatest of so many sums, taken in two orders: comparisons under multiplexers."""
    gates = Gates()
    words = [gates.word(width) for _ in range(count)]
    shift = gates.word(width)
    sums = [gates.add(w, shift) for w in words]
    order = random.Random(f"choices {count} {width}").sample(sums, count)
    first, second = greatest(gates, sums), greatest(gates, order)
    return two_results(gates, first, second, wrong_number("choices", width, off), words[0])


ENCODED = (
    [(f"product{w}x{b}", distributed(w, b, False)) for w, b in ((6, 6), (7, 7), (8, 4), (9, 4), (10, 5), (12, 5))]
    + [(f"product{w}x{b}-off", distributed(w, b, True)) for w, b in ((7, 7), (8, 8))]
    + [(f"shift{n}x{b}", shifts(n, b, False)) for n, b in ((16, 4), (24, 4), (32, 4), (32, 5))]
    + [(f"shift{n}x{b}-off", shifts(n, b, True)) for n, b in ((24, 4), (32, 5))]
    + [(f"choice{c}x{w}", choices(c, w, False)) for c, w in ((4, 8), (5, 8), (6, 6), (6, 8))]
    + [(f"choice{c}x{w}-off", choices(c, w, True)) for c, w in ((6, 12), (8, 16))]
)


def families(count):
    """Each formula with its name."""
    off = lambda yes: "off" if yes else "equal"
    for n in SIZES:
        for seed in range(count):
            yield f"random{n}-{seed:02}", random_3sat(n, seed)
    for n in HOLES:
        yield f"pigeons-{n:02}", pigeons(n)
    for n in CHAINS:
        for same in (False, True):
            yield f"parity-{n}-{'same' if same else 'other'}", parity_chain(n, 1, same)
    for n, degree in ((40, 3), (60, 3), (16, 4), (20, 4), (24, 4)):
        for total in (1, 0):
            yield f"graphs-{n}x{degree}-{'odd' if total else 'even'}", parity_graph(n, degree, 1, total)
    for n, most in ((16, 6), (20, 8), (22, 9), (40, 4)):
        for met in (False, True):
            yield f"counters-{n}-{most}-{'met' if met else 'more'}", counters(n, most, met)
    for n in (12, 16, 20, 24):
        for yes in (False, True):
            yield f"sorters-{n:02}-{off(yes)}", sorters(n, yes)
    for n in (6, 8, 10, 12):
        for yes in (False, True):
            yield f"adders-{n:02}-{off(yes)}", adders(n, yes)
    for n in (6, 7, 8, 9):
        for yes in (False, True):
            yield f"multipliers-{n:02}-{off(yes)}", multipliers(n, yes)
    for n in (6, 7, 8):
        for yes in (False, True):
            yield f"squares-{n:02}-{off(yes)}", square_of_sum(n, yes)
    for n in (7, 8, 9):
        for met in (False, True):
            yield f"squares-two{n:02}-{'met' if met else 'none'}", two_squares(n, met)
    for n in (6, 7, 8, 9):
        for yes in (False, True):
            yield f"divisions-{n:02}-{off(yes)}", divisions(n, yes)
    for name, clauses in ENCODED:
        yield f"encoded-{name}", clauses


def write(folder, name, clauses):
    variables = max(abs(l) for c in clauses for l in c)
    lines = [f"p cnf {variables} {len(clauses)}"] + [" ".join(map(str, c + [0])) for c in clauses]
    (folder / f"{name}.cnf").write_text("\n".join(lines) + "\n")


def main():
    folder = Path(sys.argv[1])
    count = int(sys.argv[2]) if len(sys.argv) > 2 else 20
    folder.mkdir(parents=True, exist_ok=True)
    for name, clauses in families(count):
        write(folder, name, clauses)


main()
