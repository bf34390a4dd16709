"""Says what each text of the tests of expansion, sizes and fillings comes to, computed by the reference apart from the
program: as rows of crates/rows_stages/data (sizes.txt, fillings.txt, spans.txt, layouts.txt).

    python3 expansions.py
"""
import re

from sketch import load, expand, sites, steps, nodes, fill, layout

MOST_NODES, MOST_SITES, MOST_STEPS, MOST_NEWS = 262144, 4096, 262144, 256


def harness(i):
    a, b = 4 * ((7 * i + 3) % 32), (11 * i + 5) % 32
    return ("harness void h%d(int x) { int s = 0; int i = 0; while (i < 4) { s = s + x * ??; i = i + 1; } "
            "assert s + ?? == x * %d + %d; } " % (i, a, b))


def itself(n):
    return "".join(harness(i) for i in range(n + 1)) + (
        "harness void least(int x) { int n = ??; assert n * 2 >= %d; minimize(n); }" % n)


TWO_COPIES = "generator int g(int x) { return x * ??; } harness void main(int x) { assert g(x) == x * 2; assert g(x) == x * 3; }"
SWAP = "harness void swap(bit[4] x, bit[4] y) { bit[4] a = x; bit[4] b = y; bit[4] t; reorder { a = b; t = a; b = t; } assert a == y && b == x; }"
LIST = ("struct Node { int val; Node next; } harness void main(int n) { assume n < 4; Node head = null; int i = 0; "
        "while (i < n) { head = new Node(val = i, next = head); i++; } Node p = null; Node q = head; while (q != null) { "
        "Node s = q.next; {| (p | q)(.next)? |} = {| (p | q)(.next)? |}; p = q; q = s; } int k = 0; "
        "while (p != null) { assert p.val == k; p = p.next; k++; } assert k == n; }")
LEAST = "harness void main(int x) { int t = 0; minrepeat { t = t + 2; } assert t >= 6; }"
ZERO_BIT = ("bit[8] spec(bit[8] x) { bit[8] r = 0; bit found = 0; for (int i = 0; i < 8; i++) { if (!found && !x[i]) { "
            "r[i] = 1; found = 1; } } return r; } bit[8] fast(bit[8] x) implements spec { return ~(x + ??) & (x + ??); }")
ITSELF = "generator int g(int x) { if (??) return x; return g(x) + 1; } harness void main(int x) { assert g(x) == x + 3; }"
LOOPS = "harness void main() { while (0) while (0) while (0) assert 1; }"
INSIDE = ("generator int h(int x) { return x + ??(2); } generator int g(int x) { return h(x) * h(x + 1); } "
          "harness void main(int x) { assert g(x) >= g(1); }")
NESTED = "generator int g(int x) { return x + ??(1); } harness void main(int x) { assert g(g(x)) == x + g(1); }"
COUNTED = "generator void g(ref int t) { minrepeat { t = t + 1; } } harness void main(int x) { int t = 0; g(t); g(t); assert t == x; }"
SIX = "harness void main(int x) { int t = x; reorder { t = t + 1; t = t * 2; t = t - 3; t = t / 2; t = 0 - t; t = t % 5; } assert t == x; }"
NONE = "harness void main(int x) { int t = x; repeat (0) { t = t + ??; } assert t == x; }"
MANY = "harness void main(int x) { int t = x; repeat (64) { t = t + ??(1); } assert t == x + 7; }"
OPEN_COUNT = "harness void main(int x) { int t = x; repeat (??(2)) { t = t + ??(1); } assert t == x + 2; }"
CIRCLE = ("int even(int n) { if (n == 0) return 1; return odd(n - 1); } int odd(int n) { if (n == 0) return 0; "
          "return even(n - 1); } harness void main(int x) { assert even(x) >= 0; }")
RECORDS = ("struct P { int u; } P made(int x) { return new P(u = x); } harness void main(int x) { P p = null; "
           "while (p == null) { p = made(x); } repeat (3) { p = new P(u = p.u + 1); } assert p.u == x + 3; }")
MIXED = "harness void main(int x) { int t = x; reorder { t = t + ??(1); t = t * ??(2); t = 3; } assert t == x; }"
BITS = "harness void main(bit[4] x) { bit[4] h = ??; bit b = ??; assert h[0] == b || x == h; }"
STRINGS = "harness void main(int x, int y) { int z = {| x + ?? | (x | y) | ?? * y |}; assert z == y; }"
REFERENCE = "int twice(int x) { return x + x; } int other(int x) implements twice { return x * ??; }"
SITED_GENERATORS = "generator bit c() { return ??; } harness void main(int x) { while (c()) { assert c(); } if (c()) { assert c(); } else { assert 1; } }"


def loops(rest):
    return "harness void main() { " + rest + " }"


# text, bounds that differ from the defaults, by the reference's names
SIZES = [
    ("two copies of a generator", TWO_COPIES, {}),
    ("one site for all calls of a function", TWO_COPIES.replace("generator ", ""), {}),
    ("a reorder of three", SWAP, {}),
    ("two patterns, and a record in a loop", LIST, {}),
    ("a minrepeat", LEAST, {}),
    ("two holes of arrays of bits", ZERO_BIT, {}),
    ("a generator that calls itself", ITSELF, {}),
    ("the same at a bound of 1", ITSELF, {"inline": 1}),
    ("three loops", LOOPS, {}),
    ("the same at 64 turns", LOOPS, {"unroll": 64}),
    ("the text of `self 7`", itself(7), {}),
    ("the text of `self 0`", itself(0), {}),
    ("a generator in a generator", INSIDE, {}),
    ("a generator in its argument", NESTED, {}),
    ("a minrepeat in a generator", COUNTED, {}),
    ("a reorder of six", SIX, {}),
    ("a repeat by 0", NONE, {}),
    ("a repeat by 64", MANY, {}),
    ("a repeat by a hole", OPEN_COUNT, {}),
    ("a repeat by a hole, no turns", OPEN_COUNT, {"unroll": 0}),
    ("a circle of calls at a bound of 1", CIRCLE, {"inline": 1}),
    ("at 2", CIRCLE, {"inline": 2}),
    ("at 3", CIRCLE, {"inline": 3}),
    ("at 4", CIRCLE, {"inline": 4}),
    ("at 5", CIRCLE, {"inline": 5}),
    ("records in a loop, in a call and in a repeat", RECORDS, {}),
    ("holes of bits", BITS, {}),
    ("holes in strings", STRINGS, {"cbits": 2}),
    ("a function and its reference", REFERENCE, {}),
    ("generators in a condition", SITED_GENERATORS, {}),
]

LAYOUTS = [
    ("minus signs in a row","int f(int x) { return - -x - -1; }"),
    ("choices in choices","int f(bit a, bit b, int x) { return a ? b ? 1 : 2 : (b ? 3 : x); }"),
    ("a choice in a choice's condition","int f(bit a, bit b, int x) { return (a ? b : a) ? x : a ? 1 : 2; }"),
    ("empty blocks","void f() { } void g() { { } { { } } ; }"),
    ("else if","void f(bit a, bit b) { if (a) { } else if (b) ; else assert 1; }"),
    ("an if in an if","void f(bit a, bit b) { if (a) if (b) assert 1; else assert 0; }"),
    ("repeats","harness void main(int x) { int t = x; repeat (1 + 2) t = t + 1; repeat (??) { t = t + 1; } repeat (??(3)) ; minrepeat t = t - 1; }"),
    ("a reorder","harness void main(int x) { int t = x; reorder { t = 1; { t = 2; } if (t == 3) t = 4; } }"),
    ("two lengths","int N = 2; int[2][3] f(int[2][3] a) { int[N] c = a[1]; a[2] = c; a[0][N - 1] = a[1][0]; return a; }"),
    ("a slice and braces","int[3] f(int[4] a, int i) { int[3] b = {1, 2, a[i]}; b = a[i::3]; return b; }"),
    ("records","struct P { int u; P next; } P f(ref int x, P p) { P q = new P(u = x, next = null); p.next.u = q.u; P r = new P(); return q; }"),
    ("a loop by its parts","int f(int x) { for (int i = 0; i < 3; i++) { x += i; x -= 1; } while (x > 0) x--; return x; }"),
    ("two variables at once","int f() { int a = 1, b, c = a + 2; return c; }"),
    ("patterns, generators and references","generator int g(int x) { return {| x | ?? | x + 1 |} + g(x); } int h(int x) implements k { return g(x); } int k(int x) { return x; }"),
    ("operators by their levels","bit f(int x, int y) { return !(x < y) && -x == y || x % 2 >= (y / 3) * 2; }"),
    ("the same to the left and to the right","int f(int x, int y, int z) { return x - (y - z) - (x - y) * z; }"),
    ("bits","bit[8] f(bit[8] b, int i) { return (b << 2) ^ (b >> i) & {1, 0, 1, 0, 1, 0, 1, 0} | ~b; }"),
    ("calls, assumptions and costs","void f(ref int x) { x = 1; } harness void main(int x) { assume x > 2; int y; f(y); minimize(x + y); return; }"),
    ("truth values and null","struct P { int u; } bit f(P p) { return true != (p == null) && false == 0; }"),
    ("a harness and a constant that is written out","int N = 8; int M = N * 2 + 1; harness void main(int[8] a) { assert a[7] == M; }"),
]

FILLINGS = [
    ("two copies", TWO_COPIES, {}, [2, 3]),
    ("one function", TWO_COPIES.replace("generator ", ""), {}, [2]),
    ("the order of a swap", SWAP, {}, [1, 0]),
    ("another order", SWAP, {}, [0, 2]),
    ("a list reversed", LIST, {}, [3, 0]),
    ("three of a minrepeat", LEAST, {}, [3]),
    ("none of a minrepeat", LEAST, {}, [0]),
    ("bit 0 first", ZERO_BIT, {}, [0] * 8 + [1] + [0] * 7),
    ("copies that stand", ITSELF, {"inline": 2}, [0, 1]),
    ("a copy past the bound", ITSELF, {"inline": 1}, [0]),
    ("a generator in a generator", INSIDE, {}, [0, 1, 2, 3]),
    ("a generator in its argument", NESTED, {}, [0, 1, 1]),
    ("minrepeats in generators, at the harness's start", COUNTED, {}, [2, 1]),
    ("one copy of two stands", "generator void g(ref int t) { minrepeat { t = t + ??(3); } } harness void main(int x) { int t = 0; repeat (??(1)) { g(t); } assert t == x; }", {"unroll": 1}, [1, 1, 5]),
    ("the same with none", "generator void g(ref int t) { minrepeat { t = t + ??(3); } } harness void main(int x) { int t = 0; repeat (??(1)) { g(t); } assert t == x; }", {"unroll": 1}, [0, 1, 5]),
    ("six turned round", SIX, {}, [1, 2, 3, 4, 5]),
    ("a string in parentheses", STRINGS, {"cbits": 2}, [0, 1, 2]),
    ("a string of one word", STRINGS, {"cbits": 2}, [2, 1, 2]),
    ("a product", STRINGS, {"cbits": 2}, [3, 1, 2]),
    ("bits", BITS, {}, [1, 0, 1, 1, 0]),
    ("six copies, the last past the bound", ITSELF, {}, [0] * 5),
    ("holes in a reorder", MIXED, {}, [1, 2, 1, 3]),
    ("a repeat by 0", NONE, {}, []),
    ("a repeat by 64", MANY, {}, [1 if i % 5 == 0 else 0 for i in range(64)]),
]

MINREPEAT, PATTERN = "minrepeat { t = t + 2; }", "{| x + 1 | x |}"
OPEN = "harness void main(int x) { int h = ??(4); bit[2] b = ??; int z = %s; assert z == h; }" % PATTERN
TURNS = "harness void main(int x) { int t = x; repeat (??(1)) t = t + 1; repeat (2) t = t - 1; assert t == x; }"
# Text, bounds, values, which function of the filling, and for each of its statements words of the text: those that have the
# span of the statement, those that have the span of its expression, and of what stands in parentheses or braces there.
SPANS = [
    ("a minrepeat is paid, and is a block", LEAST, {}, [1], 0, [[MINREPEAT, MINREPEAT], ["int t = 0;", "0"], [MINREPEAT], ["assert t >= 6;", "t >= 6"]]),
    ("a reorder is a block", SWAP, {}, [1, 0], 0, [["bit[4] a = x;", "x"], ["bit[4] b = y;", "y"], ["bit[4] t;"], ["reorder { a = b; t = a; b = t; }"], ["assert a == y && b == x;", "a == y && b == x"]]),
    ("repeats are blocks", TURNS, {}, [1], 0, [["int t = x;", "x"], ["repeat (??(1)) t = t + 1;"], ["repeat (2) t = t - 1;"], ["assert t == x;", "t == x"]]),
    ("what is chosen stands where it was open, in parentheses", OPEN, {}, [3, 1, 0, 0], 0, [["int h = ??(4);", "??(4)"], ["bit[2] b = ??;", "??", "??", "??"], ["int z = %s;" % PATTERN, PATTERN, PATTERN], ["assert z == h;", "z == h"]]),
    ("and without them", OPEN, {}, [3, 1, 0, 1], 0, [["int h = ??(4);", "??(4)"], ["bit[2] b = ??;", "??", "??", "??"], ["int z = %s;" % PATTERN, PATTERN], ["assert z == h;", "z == h"]]),
    ("a copy is where its generator is", ITSELF, {"inline": 1}, [0], 1, [["if (??) return x;"], ["return g(x) + 1;"]]),
    ("a copy past the bound is where its call is", ITSELF, {"inline": 1}, [0], 2, [["g(x)", "g(x)"]]),
]

def padded(make, base, chunk, want):
    """The text with so many more statements that it comes to `want`, where it comes to `base` without them and sixty-four
    copies of `assert 1;` to `chunk`."""
    chunks, rest = divmod(want - base, chunk)
    threes = rest % 2
    if rest < 3 * threes:
        chunks, rest = chunks - 1, rest + chunk
        threes = rest % 2
    return make("repeat (64) { assert 1; } " * chunks + "assert (1); " * threes + "assert 1; " * ((rest - 3 * threes) // 2))


def limit(name, make, count, chunk, most, opts):
    base = count(make(""), opts)
    for more, title in ((-1, "one %s below the limit"), (0, "%ss at the limit"), (1, "one %s above it")):
        yield title % name, padded(make, base, chunk, most + more), opts


def nodes_of(text, opts):
    p, b = load(text, **opts)
    return nodes(expand(p, b))


def steps_of(text, opts):
    p, b = load(text, **opts)
    return sum(steps(expand(p, b), b, "steps"))


LIMITS = list(limit("node", lambda rest: loops("repeat (64) { repeat (63) { repeat (20) { assert 1; } } } " + rest), nodes_of, 194, MOST_NODES, {}))
LIMITS += list(limit("step", lambda rest: loops("while (0) while (0) while (0) assert 1; " + rest), steps_of, 193, MOST_STEPS, {"unroll": 39}))
for k in (4095, 4096, 4097):
    a, b = divmod(k, 64)
    LIMITS.append(("sites: %d" % k, loops("repeat (%d) { repeat (64) { int h = ??; } } repeat (%d) { int h = ??; }" % (a, b)), {}))
for k in (255, 256, 257):
    LIMITS.append(("records: %d" % k, "struct P { int u; } " + loops("repeat (%d) { P p = new P(u = 1); } repeat (%d) { P p = new P(u = 1); } repeat (4) { repeat (50) { P p = new P(u = 1); } }" % (k - 210, 10)), {}))
LIMITS.append(("sixteen calls of itself in a generator", "generator int g(int x) { return " + " + ".join(["g(x)"] * 16) + "; } harness void main(int x) { assert g(x) == 0; }", {"inline": 16}))


def measured(text, opts):
    """What the text comes to, in the words of the tests, and how many of its sites have which size."""
    p, b = load(text, **opts)
    e = expand(p, b)
    ss = sites(e, b)
    runs, news = steps(e, b, "steps"), steps(e, b, "news")
    if nodes(e) > MOST_NODES:
        return "Copies", []
    if len(ss) > MOST_SITES:
        return "Sites", []
    if sum(runs) > MOST_STEPS:
        return "Steps", []
    if max(news, default=0) > MOST_NEWS:
        return "News", []
    return "functions %d steps %d records %d sites %d" % (len(e.funs), sum(runs), max(news, default=0), len(ss)), ss


def words(stage, opts, numbers=()):
    """The words of a row: what is shown, with these numbers and bounds."""
    out = [stage] + [str(n) for n in numbers]
    for name, option in (("cbits", "--bnd-cbits"), ("unroll", "--bnd-unroll-amnt"), ("inline", "--bnd-inline-amnt")):
        if name in opts:
            out += [option, str(opts[name])]
    return " ".join(out)


def escaped(text):
    """The text with its many equal statements as pieces, each with how often it stands."""
    for piece in ("repeat (64) { assert 1; } ", "assert (1); ", "assert 1; "):
        text = re.sub("(?:%s){4,}" % re.escape(piece), lambda run: "\\%d{%s}" % (len(run[0]) // len(piece), piece), text)
    return text


def spans(text, words):
    """Where these words of each statement stand in the text: those of its expression in its own."""
    told = ""
    for statement, *inner in words:
        first = text.index(statement)
        told += "%d %d" % (first, first + len(statement))
        for word in inner:
            # The value of a declaration stands behind its `=`.
            first_in = text.index(word, text.index("=", first) if statement[0] in "ib" else first)
            told += " %d %d" % (first_in, first_in + len(word))
        told += "\n"
    return told


def row(title, stage, text, wanted):
    print("\n=== %s\n%s\n---\n%s\n---\n%s" % (title, stage, text, wanted.rstrip("\n")))


def main():
    for name, text, opts in SIZES:
        told, ss = measured(text, opts)
        row(name, words("sizes", opts), text, told + "".join(" %d" % s for s in ss))
    for name, text, opts in LIMITS:
        told = "Copies" if name.startswith("sixteen") else measured(text, opts)[0]
        short = escaped(text)
        row(name, words("totals", opts) + ("" if short == text else "\nescaped"), short, told)
    for name, text, opts, values in FILLINGS:
        p, b = load(text, **opts)
        e = expand(p, b)
        assert len(sites(e, b)) == len(values)  # numbers the sites too
        row(name, words("filling", opts, values), text, layout(fill(e, values)))
    for name, text, opts, values, which, parts in SPANS:
        row(name, words("spans", opts, [which] + values), text, spans(text, parts))
    for name, text in LAYOUTS:
        row(name, "layout", text, layout(load(text)[0]))


if __name__ == "__main__":
    main()
