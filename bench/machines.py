#!/usr/bin/env python3
"""Makes the sketches of bench/sketches that ask for a program of a straight-line machine: short bit tricks of "Hacker's Delight".

    machines.py FOLDER      writes delight_NN_W.sk and delight_NN_W.smt2 for each number and width below

The machine has K steps over words of W bits. Of each step the operation, two operands and a distance are open; an operand is an input, no
bit, all bits, the lowest bit, or what an earlier step made. What is wanted stands as a loop over the bits. The file for the other
solvers asks the same: that there are numbers of operations, operands and distances such that for all inputs the last step makes what is
wanted, which stands there by the place of a bit. The twentieth trick divides, which the machine does not."""
import pathlib
import sys

OPERATIONS = [
    ("a & b", "(bvand a b)"),
    ("a | b", "(bvor a b)"),
    ("a ^ b", "(bvxor a b)"),
    ("a + b", "(bvadd a b)"),
    ("a & ~b", "(bvand a (bvnot b))"),
    ("a + ~b + one", "(bvsub a b)"),
    ("a >> s", "(bvlshr a s)"),
    ("a << s", "(bvshl a s)"),
    ("copied(a, s)", "(bvashr a s)"),
    ("below(a, b)", "(ite (bvult a b) (_ bv1 {w}) (_ bv0 {w}))"),
    ("below(b, a) ^ one", "(ite (bvule a b) (_ bv1 {w}) (_ bv0 {w}))"),
]


def lowest(bit, then, otherwise):
    """Of the lowest place where a bit is so, as a chain of choices."""
    def text(w):
        chain = otherwise(w)
        for i in reversed(range(w)):
            chain = f"(ite (= ((_ extract {i} {i}) x) #b{bit}) {then(i, w)}\n  {chain})"
        return chain
    return text


def word(n):
    return lambda i, w: f"(_ bv{n(i) % 2**w} {w})"


def constant(n):
    return lambda w: f"(_ bv{n % 2**w} {w})"


def highest(name):
    """The place of the highest bit that is set, counted from 1, and 0 where none is."""
    def text(w):
        chain = "(_ bv0 8)"
        for i in range(w):
            chain = f"(ite (= ((_ extract {i} {i}) {name}) #b1) (_ bv{i + 1} 8)\n  {chain})"
        return chain
    return text


def compared(relation):
    return lambda w: f"(ite ({relation} {highest('x')(w)}\n  {highest('y')(w)}) (_ bv1 {w}) (_ bv0 {w}))"


def mean(up):
    return lambda w: f"((_ extract {w} 1) (bvadd (bvadd (concat #b0 x) (concat #b0 y)) (_ bv{up} {w + 1})))"


def ones_once(w):
    """Whether one bit is set, from bit to bit: whether none, and whether one was."""
    text, none, one = "", "true", "false"
    for i in range(w):
        bit = f"(= ((_ extract {i} {i}) x) #b1)"
        text += f"(let ((none{i} (and {none} (not {bit}))) (one{i} (or (and {none} {bit}) (and {one} (not {bit})))))\n  "
        none, one = f"none{i}", f"one{i}"
    return text + f"(ite {one} (_ bv1 {w}) (_ bv0 {w}))" + ")" * w


def without_run(w):
    """Without the lowest run of set bits, from bit to bit: whether it has begun, and whether it has ended."""
    text, begun, ended, bits = "", "false", "false", []
    for i in range(w):
        bit = f"(= ((_ extract {i} {i}) x) #b1)"
        text += f"(let ((begun{i} (or {begun} {bit})) (ended{i} (or {ended} (and {begun} (not {bit})))))\n  "
        begun, ended = f"begun{i}", f"ended{i}"
        bits.append(f"(ite (and {ended} {bit}) #b1 #b0)")
    made = bits[0]
    for it in bits[1:]:
        made = f"(concat {it} {made})"
    return text + made + ")" * w


def exchanged(w):
    half = w // 2
    return f"(let ((m (_ bv{mask(w)} {w}))) (bvor (bvand x (bvnot (bvor m (bvshl m (_ bv{half} {w}))))) (bvor (bvand (bvlshr x (_ bv{half} {w})) m) (bvshl (bvand x m) (_ bv{half} {w})))))"


LOOP = "for (int i = 0; i < {w}; i++) "
DOWN = "for (int j = 0; j < {w}; j++) {{ int i = {last} - j; "

# Number: what it does, inputs, steps, the widths, the body of what is wanted with its result r, and the same as a term.
TRICKS = {
    1: ("the lowest set bit is cleared", "x", 2, [32], "bit[{w}] r = x; bit found = 0;\n    " + LOOP + "if (!found && x[i]) {{ r[i] = 0; found = 1; }}", lowest(1, lambda i, w: f"(bvxor x {word(lambda i: 1 << i)(i, w)})", constant(0))),
    2: ("trailing set bits are cleared", "x", 2, [32], "bit[{w}] r = x; bit run = 1;\n    " + LOOP + "{{ if (!x[i]) run = 0; if (run) r[i] = 0; }}", lowest(0, lambda i, w: f"(bvand x {word(lambda i: -(1 << i))(i, w)})", constant(0))),
    3: ("the lowest set bit alone", "x", 2, [32], "bit[{w}] r = 0; bit found = 0;\n    " + LOOP + "if (!found && x[i]) {{ r[i] = 1; found = 1; }}", lowest(1, word(lambda i: 1 << i), constant(0))),
    4: ("the lowest set bit and those below it", "x", 2, [32], "bit[{w}] r = 0; bit found = 0;\n    " + LOOP + "if (!found) {{ r[i] = 1; if (x[i]) found = 1; }}", lowest(1, word(lambda i: (2 << i) - 1), constant(-1))),
    5: ("bits below the lowest set bit are set", "x", 2, [32], "bit[{w}] r = x; bit found = 0;\n    " + LOOP + "if (!found) {{ r[i] = 1; if (x[i]) found = 1; }}", lowest(1, lambda i, w: f"(bvor x {word(lambda i: (1 << i) - 1)(i, w)})", constant(-1))),
    6: ("the lowest bit that is not set is set", "x", 2, [32], "bit[{w}] r = x; bit found = 0;\n    " + LOOP + "if (!found && !x[i]) {{ r[i] = 1; found = 1; }}", lowest(0, lambda i, w: f"(bvor x {word(lambda i: 1 << i)(i, w)})", constant(-1))),
    7: ("the lowest bit that is not set alone", "x", 2, [32], "bit[{w}] r = 0; bit found = 0;\n    " + LOOP + "if (!found && !x[i]) {{ r[i] = 1; found = 1; }}", lowest(0, word(lambda i: 1 << i), constant(0))),
    8: ("bits below the lowest set bit alone", "x", 2, [32], "bit[{w}] r = 0; bit found = 0;\n    " + LOOP + "{{ if (x[i]) found = 1; if (!found) r[i] = 1; }}", lowest(1, word(lambda i: (1 << i) - 1), constant(-1))),
    9: ("the absolute value", "x", 3, [8, 32], "bit[{w}] r = x; bit found = 0;\n    if (x[{last}]) " + LOOP + "{{ if (found) r[i] = !x[i]; if (x[i]) found = 1; }}", lambda w: "(ite (bvslt x (_ bv0 " + str(w) + ")) (bvneg x) x)"),
    10: ("whether the highest set bits stand at one place", "xy", 3, [16], "bit[{w}] r = 0; bit found = 0; r[0] = 1;\n    " + DOWN + "if (!found) {{ if (x[i] != y[i]) r[0] = 0; if (x[i] || y[i]) found = 1; }} }}", compared("=")),
    11: ("whether the first one's highest set bit stands above the other's", "xy", 2, [32], "bit[{w}] r = 0; bit found = 0;\n    " + DOWN + "if (!found) {{ if (x[i] && !y[i]) r[0] = 1; if (x[i] || y[i]) found = 1; }} }}", compared("bvugt")),
    12: ("whether the first one's highest set bit stands at the other's or above", "xy", 2, [32], "bit[{w}] r = 0; bit found = 0; r[0] = 1;\n    " + DOWN + "if (!found) {{ if (y[i] && !x[i]) r[0] = 0; if (x[i] || y[i]) found = 1; }} }}", compared("bvuge")),
    13: ("the sign: -1, 0 or 1", "x", 4, [8, 32], "bit[{w}] r = 0;\n    " + LOOP + "if (x[i]) r[0] = 1;\n    if (x[{last}]) " + LOOP + "r[i] = 1;", lambda w: f"(ite (= x (_ bv0 {w})) (_ bv0 {w}) (ite (bvslt x (_ bv0 {w})) (_ bv{2**w - 1} {w}) (_ bv1 {w})))"),
    14: ("the mean of two, rounded down", "xy", 4, [8, 32], "bit[{w}] r = 0; bit carry = 0;\n    " + LOOP + "{{ if (i > 0) r[i - 1] = x[i] != y[i] != carry; carry = carry && (x[i] || y[i]) || x[i] && y[i]; }}\n    r[{last}] = carry;", mean(0)),
    15: ("the mean of two, rounded up", "xy", 4, [8], "bit[{w}] r = 0; bit carry = 1;\n    " + LOOP + "{{ if (i > 0) r[i - 1] = x[i] != y[i] != carry; carry = carry && (x[i] || y[i]) || x[i] && y[i]; }}\n    r[{last}] = carry;", mean(1)),
    16: ("the greater of two", "xy", 5, [8], "bit[{w}] r = x; bit found = 0;\n    " + DOWN + "if (!found && x[i] != y[i]) {{ found = 1; if (y[i]) r = y; }} }}", lambda w: "(ite (bvult x y) y x)"),
    17: ("the lowest run of set bits is cleared", "x", 4, [16], "bit[{w}] r = x; bit begun = 0; bit ended = 0;\n    " + LOOP + "{{ if (begun && !x[i]) ended = 1; if (x[i]) begun = 1; if (!ended) r[i] = 0; }}", without_run),
    18: ("whether one bit is set", "x", 3, [32], "bit[{w}] r = 0; bit more = 0;\n    " + LOOP + "if (x[i]) {{ if (r[0]) more = 1; r[0] = 1; }}\n    if (more) r[0] = 0;", ones_once),
    19: ("two fields change places", "x", 6, [8], "bit[{w}] r = x;\n    for (int i = 0; i < {field}; i++) {{ r[i] = x[i + {half}]; r[i + {half}] = x[i]; }}", exchanged),
}


# The trick that has a mask among its operands: of the lower field.
MASKED = 19


def mask(w):
    return 2 ** (w // 2 - 1) - 1


def operands(number, step):
    given = [*TRICKS[number][1], "zero", "ones", "one", *(["mask"] if number == MASKED else [])]
    return given + [f"t{i}" for i in range(1, step)]


def sketch(number, w):
    title, inputs, steps, _, wanted, _ = TRICKS[number]
    distance = (w - 1).bit_length()
    given = ", ".join(f"bit[{w}] {it}" for it in inputs)
    loop = LOOP.format(w=w)
    lines = [
        "// synth" + (f" --bnd-unroll-amnt {w}" if w != 8 else ""),
        "// status 0 value 0",
        f"// {title[0].upper()}{title[1:]}, of {w} bits, by {steps} steps whose operations, operands and distances are open.",
        f"bit[{w}] wanted({given}) {{",
        "    " + wanted.format(w=w, last=w - 1, half=w // 2, field=w // 2 - 1),
        "    return r;",
        "}",
        f"bit[{w}] copied(bit[{w}] a, int s) {{",
        f"    bit[{w}] r = a >> s;",
        f"    if (a[{w - 1}]) {loop}if (i + s >= {w}) r[i] = 1;",
        "    return r;",
        "}",
        f"bit[{w}] below(bit[{w}] a, bit[{w}] b) {{",
        f"    bit[{w}] r = 0;",
        f"    {loop}if (a[i] != b[i]) r[0] = b[i];",
        "    return r;",
        "}",
        f"bit[{w}] step(int operation, bit[{w}] a, bit[{w}] b, int s) {{",
        f"    bit[{w}] one = 1;",
        *(f"    if (operation == {i}) return {text};" for i, (text, _) in enumerate(OPERATIONS)),
        "    return a;",
        "}",
        f"bit[{w}] made({given}) implements wanted {{",
        f"    bit[{w}] zero = 0;",
        f"    bit[{w}] ones = ~zero;",
        f"    bit[{w}] one = 1;",
        *([f"    bit[{w}] mask = {{{', '.join(str(mask(w) >> i & 1) for i in range(w))}}};"] if number == MASKED else []),
    ]
    for i in range(1, steps + 1):
        choice = f"{{| {' | '.join(operands(number, i))} |}}"
        lines.append(f"    bit[{w}] t{i} = step(??(4), {choice}, {choice}, ??({distance}));")
    return "\n".join([*lines, f"    return t{steps};", "}", ""])


def formula(number, w):
    _, inputs, steps, _, _, term = TRICKS[number]
    distance = (w - 1).bit_length()
    word = f"(_ BitVec {w})"
    given = " ".join(f"({it} {word})" for it in inputs)
    step = "a"
    for i, (_, text) in reversed(list(enumerate(OPERATIONS))):
        step = f"(ite (= o (_ bv{i} 4)) {text.format(w=w)}\n  {step})"
    lines = [
        "; sat",
        "(set-logic BV)",
        f"(define-fun wanted ({given}) {word}\n  {term(w)})",
        f"(define-fun step ((o (_ BitVec 4)) (a {word}) (b {word}) (s {word})) {word}\n  {step})",
    ]
    made = f"t{steps}"
    for i in reversed(range(1, steps + 1)):
        names = operands(number, i)
        bits = (len(names) - 1).bit_length()
        lines[2:2] = [f"(declare-const o{i} (_ BitVec 4))", f"(declare-const a{i} (_ BitVec {bits}))", f"(declare-const b{i} (_ BitVec {bits}))", f"(declare-const s{i} (_ BitVec {distance}))"]
        terms = {"zero": f"(_ bv0 {w})", "ones": f"(_ bv{2**w - 1} {w})", "one": f"(_ bv1 {w})", "mask": f"(_ bv{mask(w)} {w})"}
        def operand(which):
            text = terms.get(names[-1], names[-1])
            for n, name in reversed(list(enumerate(names[:-1]))):
                text = f"(ite (= {which}{i} (_ bv{n} {bits})) {terms.get(name, name)} {text})"
            return text
        made = f"(let ((t{i} (step o{i} {operand('a')} {operand('b')} ((_ zero_extend {w - distance}) s{i}))))\n  {made})"
    return "\n".join([*lines, f"(assert (forall ({given})\n  (= (wanted {' '.join(inputs)}) {made})))", "(check-sat)", ""])


def main(folder):
    for number, (_, _, _, widths, _, _) in TRICKS.items():
        for w in widths:
            name = f"{folder}/delight_{number:02}_{w}"
            pathlib.Path(f"{name}.sk").write_text(sketch(number, w))
            pathlib.Path(f"{name}.smt2").write_text(formula(number, w))
    return 0


if __name__ == "__main__":
    sys.exit(main(*sys.argv[1:]) if len(sys.argv) == 2 else print(__doc__) or 2)
