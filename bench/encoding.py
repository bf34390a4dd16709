"""The gates of `sk_gates` and the encoding of `sk_cnf` again in Python, for the bench of the solver.

A bit is `True`, `False` or a literal: the number of a variable from 1, negative where it is negated. A word is a list of
bits, the least first. A gate folds constants and equal or opposite literals, and is made once. The sizes at the end are
those of the rows of `rows_clauses`: `python3 bench/encoding.py` compares them.
"""


def neg(a):
    return (not a) if isinstance(a, bool) else -a


def known(a):
    return isinstance(a, bool)


def given(a, literal, value):
    """What the bit is where the literal is known to have this value."""
    if known(a) or abs(a) != abs(literal):
        return a
    return value if a == literal else not value


class Gates:
    """Clauses that grow by gates, each of which is made once."""

    def __init__(self):
        self.variables = 0
        self.clauses = []
        self.made = {}

    def fresh(self):
        self.variables += 1
        return self.variables

    def word(self, length):
        return [self.fresh() for _ in range(length)]

    def push(self, *clause):
        self.clauses.append(list(clause))

    def demand(self, bit):
        """Says that the bit is true."""
        if known(bit):
            if not bit:
                self.push()
        else:
            self.push(bit)

    def gate(self, key, clauses_of):
        if key not in self.made:
            r = self.fresh()
            for clause in clauses_of(r):
                self.push(*clause)
            self.made[key] = r
        return self.made[key]

    def both(self, a, b):
        if known(a):
            return b if a else False
        if known(b):
            return a if b else False
        if a == b:
            return a
        if a == -b:
            return False
        x, y = (a, b) if abs(a) <= abs(b) else (b, a)
        return self.gate(("and", x, y), lambda r: [(-r, x), (-r, y), (r, -x, -y)])

    def either(self, a, b):
        return neg(self.both(neg(a), neg(b)))

    def differ(self, a, b):
        if known(a):
            return neg(b) if a else b
        if known(b):
            return neg(a) if b else a
        x, y = sorted((abs(a), abs(b)))
        if x == y:
            return a != b
        r = self.gate(("xor", x, y), lambda r: [(-r, x, y), (-r, -x, -y), (r, -x, y), (r, x, -y)])
        return -r if (a < 0) != (b < 0) else r

    def mux(self, c, a, b):
        if known(c):
            return a if c else b
        a, b = given(a, c, True), given(b, c, False)
        if known(a):
            return self.either(c, b) if a else self.both(-c, b)
        if known(b):
            return self.either(-c, a) if b else self.both(c, a)
        if a == b:
            return a
        if a == -b:
            return self.differ(c, b)
        if c < 0:
            c, a, b = -c, b, a
        return self.gate(("mux", c, a, b), lambda r: [(-r, -c, a), (r, -c, -a), (-r, c, b), (r, c, -b)])

    def full_adder(self, a, b, c):
        apart = self.differ(a, b)
        return self.differ(apart, c), self.mux(apart, c, a)

    def add_carry(self, a, b, carry):
        total = []
        for x, y in zip(a, b):
            digit, carry = self.full_adder(x, y, carry)
            total.append(digit)
        return total, carry

    def add(self, a, b, carry=False):
        total, carry = self.add_carry(a[:-1], b[:-1], carry)
        return total + [self.differ(self.differ(a[-1], b[-1]), carry)]

    def subtract(self, a, b):
        return self.add(a, [neg(x) for x in b], True)

    def multiply(self, a, b):
        if sum(not known(x) for x in a) < sum(not known(x) for x in b):
            a, b = b, a
        total = [False] * len(a)
        for i, bit in enumerate(b):
            row = [False] * i + [self.both(x, bit) for x in a[: len(a) - i]]
            total = self.add(total, row)
        return total

    def mux_each(self, c, a, b):
        return [self.mux(c, x, y) for x, y in zip(a, b)]

    def divide_from_0(self, a, b):
        """The quotient and the remainder of numbers from 0; both 0 where the divisor is 0."""
        trimmed = lambda bits: bits[: max((i + 1 for i, x in enumerate(bits) if x is not False), default=0)]
        x, y = trimmed(a), trimmed(b)
        tops = [True]
        for bit in reversed(y):
            tops.append(self.both(tops[-1], neg(bit)))
        quotient, left = [False] * len(x), []
        for i in reversed(range(len(x))):
            quotient[i], left = self.divide_step(x[i], left, y, tops)
        some = neg(tops[len(y)])
        padded = lambda bits: [self.both(d, some) for d in bits] + [False] * (len(a) - len(bits))
        return padded(quotient), padded(left)

    def divide_step(self, bit, left, divisor, tops):
        taken = [bit] + left
        low = min(len(taken), len(divisor))
        clear = tops[len(divisor) - low]
        if clear is False:
            return clear, taken[:low]
        difference, fits = self.add_carry(taken[:low], [neg(d) for d in divisor[:low]], True)
        over = taken[low] if low < len(taken) else False
        digit = self.both(self.either(fits, over), clear)
        return digit, self.mux_each(digit, difference, taken[:low])

    def negate_if(self, bits, when):
        return self.add([self.differ(x, when) for x in bits], [False] * len(bits), when)

    def divide(self, a, b):
        """The quotient of words in two's complement, rounded toward 0, and what it leaves."""
        q, r = self.divide_from_0(self.negate_if(a, a[-1]), self.negate_if(b, b[-1]))
        return self.negate_if(q, self.differ(a[-1], b[-1])), self.negate_if(r, a[-1])

    def less(self, a, b, signed=False):
        below = False
        for x, y in zip(a[:-1], b[:-1]):
            below = self.mux(self.differ(x, y), y, below)
        return self.mux(self.differ(a[-1], b[-1]), a[-1] if signed else b[-1], below)

    def apart(self, a, b):
        some = False
        for x, y in zip(a, b):
            some = self.either(some, self.differ(x, y))
        return some

    def equal(self, a, b):
        return neg(self.apart(a, b))


def constant(value, length):
    return [bool(value >> k & 1) for k in range(length)]


def input_word(gates, bits, width):
    """A scalar of the input of which so many bits have leaves, as a word."""
    return gates.word(bits) + [False] * (width - bits)


def size_of(build):
    """The variables and the clauses of a formula over two words of 16 bits, of which 5 have leaves."""
    gates = Gates()
    x, y = (input_word(gates, 5, 16) for _ in range(2))
    gates.demand(build(gates, x, y))
    return gates.variables, len(gates.clauses)


def compare():
    nine = constant(9, 16)
    some = lambda g, x: g.apart(x, constant(0, 16))
    rows = [
        ("a sum", lambda g, x, y: g.equal(g.add(x, y), nine), (29, 71)),
        ("a product", lambda g, x, y: g.equal(g.multiply(x, y), nine), (99, 318)),
        ("a product with 10", lambda g, x, y: g.equal(g.multiply(x, constant(10, 16)), nine), (22, 46)),
        ("a quotient", lambda g, x, y: g.equal(g.divide(x, y)[0], nine), (87, 282)),
        ("a remainder", lambda g, x, y: g.equal(g.divide(x, y)[1], nine), (87, 282)),
        ("a choice", lambda g, x, y: g.equal(g.mux_each(some(g, x), x, y), nine), (23, 45)),
        ("a comparison", lambda g, x, y: g.less(x, y, True), (20, 40)),
    ]
    for name, build, wanted in rows:
        found = size_of(build)
        assert found == wanted, f"{name}: {found}, and not {wanted}"
    print(f"{len(rows)} sizes as in the rows")


if __name__ == "__main__":
    compare()
