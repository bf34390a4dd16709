"""Breaks texts in two places, and asks that `sketch synth` names the fault that stands first.

    python3 bench/first_faults.py PROGRAM [PAIRS] [SEED]

A text (of `examples/`, or one that is made up) is broken in one place, in a later place, and in both. Where each break
alone is a fault of the bodies at a place of its own, the text with both is to be refused as with the first alone. Prints
each pair that is not, and how many there were. What is wrong only beside another operand (`null + x`) is left out as a
first break, since it is met with that operand.
"""
import pathlib
import random
import re
import subprocess
import sys

HEAD = """struct S { int u; S n; } int N = 2; int two(int p, bit q) { return p; } void act(int[4] p, int q) {}
"""
# a fault behind all others, so that no text is completed
END = "\nvoid last() { nowhere = 1; }\n"
FIRST = ["qq", "40000", "??(16)", "v", "two", "??", "p", "(x, y)", "x[qq]", "a[qq::qr]", "two(qq)", "two(1, b, qq)", "f0(qq)"]
FIRST += ["new S(q = qr)", "{| qq | qr |}", "q0 + q1", "(b ? q2 : q3)", "a[0::9]", "true"]
SECOND = FIRST + ["{1, 2}", "{1, qq}", "null"]
TOKEN = re.compile(r"[A-Za-z_][A-Za-z_0-9]*|\d+|\?\?(\(\d+\))?")
KEYWORDS = set(
    "int bit void struct harness generator implements if else while for repeat reorder minrepeat assert assume minimize "
    "return new null true false pragma ref".split()
)


class Writer:
    """Writes texts that keep the rules, with variables of every sort in scope."""

    def __init__(self):
        self.count = 0
        self.scopes = [{}]

    def fresh(self, sort=None):
        self.count += 1
        name = f"n{self.count}"
        if sort:
            self.scopes[-1][name] = sort
        return name

    def named(self, sort):
        return random.choice([name for scope in self.scopes for name, its in scope.items() if its == sort])

    def integer(self, depth):
        if depth <= 0 or random.random() < 0.25:
            return random.choice([self.named("int"), str(random.randint(0, 9))])
        part = lambda: self.integer(depth - 1)
        return random.choice([
            lambda: f"({part()} {random.choice('+-*')} {part()})",
            lambda: f"-{part()}",
            lambda: f"({self.bit(depth - 1)} ? {part()} : {part()})",
            lambda: f"a[{part()}]",
            lambda: f"a[{part()}::2][{part()}]",
            lambda: "p.u",
            lambda: f"two({part()}, {self.bit(depth - 1)})",
            lambda: f"new S(u = {part()}).u",
            lambda: "??",
            lambda: f"g[{part()}][{part()}]",
        ])()

    def bit(self, depth):
        if depth <= 0 or random.random() < 0.2:
            return self.named("bit")
        return random.choice([
            lambda: f"({self.integer(depth - 1)} {random.choice(['<', '==', '!=', '>='])} {self.integer(depth - 1)})",
            lambda: f"({self.bit(depth - 1)} {random.choice(['&&', '||', '^'])} {self.bit(depth - 1)})",
            lambda: f"!{self.bit(depth - 1)}",
            lambda: f"v[{self.integer(depth - 1)}]",
            lambda: f"(({self.bits(depth - 1)} & {self.bits(depth - 1)}) == v)",
        ])()

    def bits(self, depth):
        if depth <= 0:
            return "v"
        part = lambda: self.bits(depth - 1)
        return random.choice([
            lambda: f"({part()} {random.choice('^+')} {part()})",
            lambda: f"({part()} << {self.integer(depth - 1)})",
            lambda: f"~{part()}",
        ])()

    def array(self, depth):
        elements = ", ".join(self.integer(depth - 1) for _ in range(random.randint(1, 4)))
        return random.choice(["a", f"{{{elements}}}"])

    def declared(self, sort, value):
        # (a variable is not in scope in its own value)
        return f"{sort} {self.fresh(sort)} = {value};"

    def statement(self, depth):
        simple = [
            lambda: self.declared("int", self.integer(3)),
            lambda: self.declared("bit", self.bit(3)),
            lambda: f"{self.named('int')} = {self.integer(3)};",
            lambda: f"a[{self.integer(2)}] = {self.integer(2)};",
            lambda: f"p.u = {self.integer(2)};",
            lambda: f"{self.named('int')} {random.choice(['+=', '-='])} {self.integer(2)};",
            lambda: f"a[{random.choice(['x', 'x + 1', '1'])}]++;",
            lambda: f"assert {self.bit(3)};",
            lambda: f"minimize({self.integer(2)});",
            lambda: f"act({self.array(2)}, {self.integer(2)});",
            lambda: f"int[4] {self.fresh()} = {self.array(2)};",
            lambda: f"reorder {{ x = {self.integer(2)}; y = {self.integer(2)}; }}",
        ]
        step = lambda: random.choice(["x++", f"x = {self.integer(2)}", f"x += {self.integer(2)}", "a[x]++"])
        nested = [
            lambda: f"if ({self.bit(2)}) {self.block(depth - 1)} else {self.block(depth - 1)}",
            lambda: f"while ({self.bit(2)}) {self.block(depth - 1)}",
            lambda: f"for (x = {self.integer(2)}; {self.bit(2)}; {step()}) {self.block(depth - 1)}",
            lambda: f"repeat ({random.choice(['3', '??', 'N + 1'])}) {self.block(depth - 1)}",
        ]
        return random.choice(simple + nested if depth > 0 else simple)()

    def block(self, depth):
        self.scopes.append({})
        made = " ".join(self.statement(depth) for _ in range(random.randint(1, 3)))
        self.scopes.pop()
        return f"{{ {made} }}"

    def text(self):
        made = HEAD
        for number in range(random.randint(1, 3)):
            self.scopes = [{"x": "int", "y": "int", "b": "bit"}]
            parameters = "int x, int y, bit b, int[4] a, bit[4] v, int[3][2] g, S p"
            made += f"void f{number}({parameters}) {self.block(2)}\n"
        return made


def fault_of(program, text):
    """The number of the rule and the bytes of the place, or nothing where the text keeps all rules or does not read."""
    said = subprocess.run([program, "synth"], input=(text + END).encode(), capture_output=True)
    found = re.match(r"type (\d+) (\d+) (\d+)", said.stderr.decode("latin1") + said.stdout.decode("latin1"))
    if not found:
        return None
    rule, start, end = map(int, found.groups())
    return (rule, start, end) if 0 < end and start < len(text) else None


def is_valid(program, text):
    said = subprocess.run([program, "synth"], input=(text + END).encode(), capture_output=True)
    found = re.search(rb"type \d+ (\d+) ", said.stdout + said.stderr)
    return bool(found) and int(found[1]) >= len(text)


def tokens_in_bodies(text):
    depth, found = 0, []
    for token in TOKEN.finditer(text):
        depth = text.count("{", 0, token.start()) - text.count("}", 0, token.start())
        if depth > 0 and token[0] not in KEYWORDS:
            found.append(token)
    return found


def pair_in(program, text, tokens):
    """The fault of the first break alone, and the text with both, where these two breaks tell something."""
    first, second = sorted(random.sample(tokens, 2), key=lambda it: it.start())
    one, other = random.choice(FIRST), random.choice(SECOND)
    before, between, after = text[: first.start()], text[first.end() : second.start()], text[second.end() :]
    alone = fault_of(program, before + one + between + second[0] + after)
    later = fault_of(program, before + first[0] + between + other + after)
    if not alone or not later or alone[2] > len(before + one + between) or later[1] < first.end():
        return None
    return alone, before + one + between + other + after


def main():
    program = sys.argv[1]
    pairs = int(sys.argv[2]) if len(sys.argv) > 2 else 1000
    random.seed(int(sys.argv[3]) if len(sys.argv) > 3 else 1)
    folder = pathlib.Path(__file__).parent.parent / "examples"
    examples = [it.read_text() for it in sorted(folder.glob("*.sk"))]
    done = wrong = 0
    while done < pairs:
        text = random.choice([random.choice(examples), Writer().text()])
        tokens = tokens_in_bodies(text)
        if len(tokens) < 4 or not is_valid(program, text):
            continue
        for _ in range(12):
            pair = pair_in(program, text, tokens)
            if not pair:
                continue
            alone, both = pair
            found = fault_of(program, both)
            done += 1
            if found != alone:
                wrong += 1
                print(f"alone {alone}, both {found}:\n{both}\n")
    print(f"{done} pairs, {wrong} in which another fault is named")


if __name__ == "__main__":
    main()
