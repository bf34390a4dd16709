#!/usr/bin/env python3
"""Looks for texts on which the program wants memory while there is memory.

    python3 bench/wants.py PROGRAM [N] [SEED] [--jobs N] [--limit SECONDS] [--memory MIB] [--only WORD] [--keep FOLDER]

PROGRAM is the built `sketch`. It is run on N random texts (1,000 if left out) of the makers in bench/reference and of
bench/first_faults.py, by SEED (1): sketches, and a run step by step of a choice that each writes; programs; sketches with algebraic
types, and what becomes of each; all of these damaged. Before them it is run on bench/sketches, on examples/, on the rows of
crates/rows_commands, and on the families below, which come near to each limit that docs/LANGUAGE.md states. `--only` takes the
kinds whose names hold WORD.

A run that ends with status 17 while it held at most a quarter of MIB (4,096) is a want: its words and text go to FOLDER
(wants-found), and it is told. So is a run that the system ended. Where LANGUAGE states that memory counts as wanting, past
4,096 levels of a run, 2,044 arguments of a call in `synth`, 768 levels of copies and 512 blocks of cases, the run is counted as stated, and so is one that held more than that
quarter as full. A run of more than SECONDS (10) of processor time is cut off, and counted apart. The script prints for each kind how many
runs ended with each status, and ends with status 1 where there is a want or a run that the system ended.
"""
import argparse
import collections
import dataclasses
import multiprocessing
import os
import pathlib
import random
import re
import resource
import signal
import subprocess
import sys
import tempfile

TOP = pathlib.Path(__file__).resolve().parents[1]
sys.path[:0] = [str(TOP / "bench/reference"), str(TOP / "bench")]
import cases  # noqa: E402
import first_faults  # noqa: E402
import makers  # noqa: E402

MEMORY_WANTED = 17
LEVELS, COPIES, CASES = 4096, 768, 512
ARGUMENTS = 2044
SHORT = "--rounds 3 --conflicts 1000"
GIVEN = None  # what the script was given


@dataclasses.dataclass
class Text:
    """Words and a text for a run, and whether LANGUAGE states that it may end as by want of memory."""

    kind: str
    words: list
    text: str
    is_stated: bool = False


@dataclasses.dataclass
class Ended:
    """How a run ended: its status, negative by a signal, what it wrote, and its greatest memory in bytes."""

    status: int
    out: str
    peak: int


def begin(given):
    """What each run of a worker may take, which the worker hands on: it passes over the signal that ends a run."""
    global GIVEN
    GIVEN = given
    signal.signal(signal.SIGXCPU, lambda *_: None)
    resource.setrlimit(resource.RLIMIT_CPU, (given.limit, resource.RLIM_INFINITY))
    resource.setrlimit(resource.RLIMIT_AS, (given.memory << 20, given.memory << 20))
    resource.setrlimit(resource.RLIMIT_CORE, (0, 0))


def run(words, text):
    """A run of the program, which writes no lines for people: those take more time than the run."""
    with tempfile.TemporaryFile() as source, tempfile.TemporaryFile() as sink:
        source.write(text.encode("latin1", "replace"))
        source.seek(0)
        ran = subprocess.Popen([GIVEN.program, *words], stdin=source, stdout=sink, stderr=subprocess.DEVNULL, env={"SKETCH_EXPLAIN": "0"})
        _, status, usage = os.wait4(ran.pid, 0)
        ran.returncode = os.waitstatus_to_exitcode(status)
        sink.seek(0)
        return Ended(ran.returncode, sink.read(1 << 20).decode("latin1"), usage.ru_maxrss << 10)


# Families. Each yields texts of its kind.


def families():
    yield from recursions()
    yield from heaps()
    yield from reorders()
    yield from patterns()
    yield from nests()
    yield from many()
    yield from lowerings()


TREE = "struct T { int k; T l; T r; T a; T b; T c; T d; T e; T f; }\n"
TARGETS = {
    2: "{| t(.l | .r) |}",
    4: "{| t(.l | .r | .a | .b) |}",
    8: "{| t(.l | .r | .a | .b | .c | .d | .e | .f) |}",
    16: "{| t(.l | .r | .a | .b)(.l | .r | .a | .b) |}",
    64: "{| t(.l | .r | .a | .b | .c | .d | .e | .f)(.l | .r | .a | .b | .c | .d | .e | .f) |}",
}


def recursions():
    """Functions that assign what they themselves give to targets that are left open."""
    kind = "deep recursion"
    for strings, target in TARGETS.items():
        for calls in (2, 5, 10, 16):
            words = f"synth --bnd-inline-amnt {calls} --bnd-inbits 1 {SHORT}".split()
            grown = f"T grown(T t, int n) {{ if (n == 0) return new T(k = 1); {target} = grown(t.l, n - 1); return t; }}\n"
            if strings <= 8:
                root = "new T(k = 0, l = new T(k = 2))"
                yield Text(kind, words, f"{TREE}{grown}harness void main(int x) {{ T t = {root}; t = grown(t, x + {calls - 2}); assert t != null; }}")
            made = f"T made(int n) {{ T t = new T(l = new T(), r = new T(), a = new T(), b = new T()); if (n > 0) {target} = made(n - 1); return t; }}\n"
            yield Text(kind, words, f"{TREE}{made}harness void main(int x) {{ T t = made(x + {calls - 2}); assert t.l.l != null; }}")
            if strings <= 8:
                twice = f"int turns(T t, int n, ref int s) {{ s++; if (n <= 0) return s; {target.replace(' |}', '.k |}')} = turns(t, n - 1, s); return s; }}\n"
                yield Text(kind, words, f"{TREE}{twice}harness void main(int x) {{ T t = {ROOT}; int s = 0; int r = turns(t, {calls - 1}, s); assert s == {calls}; assert t.b.k == r; }}")
    for keys in (2, 3, 4):
        for calls in (4, 5, 8):
            yield Text(kind, f"synth --bnd-inbits 2 --bnd-unroll-amnt {keys} --bnd-inline-amnt {calls} {SHORT}".split(), SEARCH_TREE.replace("4", str(keys)))


ROOT = "new T(" + ", ".join(f"{f} = new T()" for f in "lrabcdef") + ")"
SEARCH_TREE = """struct T { int key; T l; T r; }
T insert(T t, int k) {
    if ({| t(.l | .r)? (== | !=) null |}) return new T(key = k);
    if ({| t.key (< | <= | == | >= | >) k |}) {| t(.l | .r) |} = insert({| t(.l | .r)? |}, {| k | t.key |});
    else {| t(.l | .r) |} = insert({| t(.l | .r)? |}, {| k | t.key |});
    return {| t(.l | .r)? |};
}
int walk(T t, ref int[4] out, int n) { if (t == null) return n; n = walk(t.l, out, n); out[n] = t.key; return walk(t.r, out, n + 1); }
harness void main(int[4] a) {
    T t = null;
    for (int i = 0; i < 4; i++) t = insert(t, a[i]);
    int[4] out;
    assert walk(t, out, 0) == 4;
    for (int i = 1; i < 4; i++) assert out[i - 1] <= out[i];
}
"""
LIST = "struct Node { int value; Node next; Node prev; }\n"


def copies_of(count, statement):
    """A statement so many times, by repeats of at most 64."""
    return " ".join(f"repeat ({min(64, count - at)}) {statement}" for at in range(0, count, 64))


def heaps():
    """Runs that allocate 200 records and up to 256, and one more."""
    kind = "heaps"
    after = "{| (list | first)(.next | .prev) |} = {| (list | first)(.next)? |}; assert list.next == first || x > ??;"
    for count in [*range(200, 250, 10), *range(250, 259)]:
        chain = copies_of(count, "list = new Node(value = x, next = list);")
        head = f"{LIST}harness void main(int x) {{ Node list = null; "
        yield Text(kind, f"synth --bnd-inbits 1 {SHORT}".split(), f"{head}{chain} Node first = list; {after} }}")
        under = copies_of(count, "if (x > ??) list = new Node(value = x, next = list);")
        yield Text(kind, f"synth --bnd-inbits 1 --bnd-cbits 1 {SHORT}".split(), f"{head}{under} assert list != null; }}")
        opened = copies_of(count - 1, "{| list(.next | .prev) |} = new Node(value = x, next = list);")
        yield Text(kind, f"synth --bnd-inbits 1 {SHORT}".split(), f"{head}list = new Node(); {opened} assert list != null; }}")
        yield Text(kind, ["exec", "main", "1"], f"{head}{chain} assert list != null; }}")
        yield Text(kind, ["trace", "main", "1"], f"{head}{chain} assert list != null; }}")
    for unroll in (50, 60, 63, 64):
        loops = " ".join(f"for (int i{k} = 0; i{k} < x + {unroll - 1}; i{k}++) {{| list | first |}} = new Node(next = {{| list | first |}});" for k in range(4))
        yield Text(kind, f"synth --bnd-inbits 1 --bnd-unroll-amnt {unroll} {SHORT}".split(), f"{LIST}harness void main(int x) {{ Node list = null; Node first = null; {loops} assert list != null; }}")
    built = "T built(int d) { if (d == 0) return null; T t = new T(); {| t(.l | .r) |} = built(d - 1); {| t(.l | .r) |} = built(d - 1); return t; }\n"
    for depth in (5, 6, 7, 8):
        yield Text(kind, f"synth --bnd-inbits 1 --bnd-inline-amnt {depth} {SHORT}".split(), f"{TREE}{built}harness void main(int x) {{ T t = built({depth - 1}); assert t.l != null && t.r != null; }}")
    for size in (64, 256):
        array = "Node[16][16]" if size == 256 else "Node[64]"
        place = "[i / 16][i % 16]" if size == 256 else "[i]"
        put = f"for (int i = 0; i < 64; i++) row{place} = new Node(value = i);"
        yield Text(kind, f"synth --bnd-unroll-amnt 64 --bnd-inbits 4 --bnd-cbits 4 {SHORT}".split(), f"{LIST}harness void main(int j) {{ {array} row; {put} row[{'j][' if size == 256 else ''}??].next = row[{'3][' if size == 256 else ''}3]; assert row[{'j][' if size == 256 else ''}2].next != null; }}")
    wide = "struct W { int[16][16] a; int[16][16] b; W[64] r; W n; }\n"
    for count in (50, 200, 256):
        yield Text(kind, f"synth --bnd-inbits 1 {SHORT}".split(), f"{wide}harness void main(int x) {{ W w = null; {copies_of(count, 'w = new W(n = w);')} w.a[x][??] = 1; assert w.a[x][1] == 1; }}")
    yield Text(kind, ["exec", "main", "--bnd-unroll-amnt", "64"], f"{LIST}int main() {{ Node list = null; for (int i = 0; i < 64; i++) for (int j = 0; j < 64; j++) for (int k = 0; k < 16; k++) list = new Node(next = list); return list.value; }}")


def reorders():
    """Six statements in an open order, which call and allocate."""
    kind = "reorder of six"
    make = "Node make(ref int n, Node next) { n++; return new Node(value = n, next = next); }\n"
    two = "Node pair(ref int n, Node p) { reorder { p = make(n, p); n = n + 2; } return p; }\n"
    ways = [
        "p = make(n, q);", "q = make(n, p);", "p.next = make(n, null);", "{| (p | q)(.next | .prev) |} = make(n, p);", "n = p.value;",
        "{| p | q |} = pair(n, q);", "{ Node h = make(n, p); q = h; }", "if (n > ??) q = new Node(value = n);", "make(n, p);", "assert p != null;", "p = null;",
    ]
    for seed in range(30):
        source = random.Random(seed)
        chosen = " ".join(source.sample(ways, 6))
        yield Text(kind, f"synth --bnd-inbits 1 --bnd-cbits 1 {SHORT}".split(), f"{LIST}{make}{two}harness void main(int x) {{ int n = x; Node p = new Node(); Node q = new Node(next = p); reorder {{ {chosen} }} assert n > 2 && p != null; }}")
    inner = "reorder { a = a + 1; b = a; a = b * 2; c = a - b; b = c; c = c + a; }"
    yield Text(kind, f"synth --bnd-inbits 2 {SHORT}".split(), f"harness void main(int x) {{ int a = x; int b = 0; int c = 0; reorder {{ {inner} {inner} {inner} {inner} {inner} {inner} }} assert c == ??; }}")
    yield Text(kind, f"synth --bnd-inbits 2 {SHORT}".split(), f"int f(int x) {{ int a = x; int b = 0; int c = 0; {inner} return c; }} harness void main(int x) {{ int s = 0; reorder {{ s = f(s); s = s + f(x); s = f(f(s)); s = s * 2; s = s - f(1); s = f(2); }} assert s == ??; }}")


def patterns():
    """Patterns of 128 strings."""
    kind = "patterns of 128"
    fields = "(.l | .r | .a | .b | .c | .d | .e | .f)"
    place = f"t{fields}{fields}(.l | .r)"
    numbers = "(x | y | 2 | 3) (+ | - | * | /) (x | y) (+ | - | *  | %) x"
    record = "new T(" + ", ".join(f"{f} = {ROOT}" for f in "lr") + ")"
    for calls in (1, 5, 16):
        words = f"synth --bnd-inbits 1 --bnd-inline-amnt {calls} {SHORT}".split()
        value = f"int f(int x, int y) {{ if (x == 0) return y; return f(x - 1, {{| {numbers} |}}); }}\n"
        yield Text(kind, words, f"{value}harness void main(int x) {{ int y = f(x + {calls - 2}, x); assert y == ??; }}")
        nested = f"int g(int x, int y) {{ return x + y; }} int f(int x, int y) {{ if (x == 0) return y; return g(f(x - 1, {{| {numbers} |}}), g({{| {numbers} |}}, {{| {numbers} |}})); }}\n"
        yield Text(kind, words, f"{nested}harness void main(int x) {{ int y = f(x + {calls - 2}, x); assert y == ??; }}")
        target = f"T made(T t, int n) {{ if (n == 0) return new T(); {{| {place} |}} = made(t, n - 1); return t.l; }}\n"
        yield Text(kind, words, f"{TREE}{target}harness void main(int x) {{ T t = {record}; T u = made(t, {calls - 1}); assert t.l.r.r == u; }}")
        tested = f"int f(T t, int n) {{ if (n == 0) return 1; if ({{| t{fields}{fields} (== | !=) null |}}) return f(t, n - 1); return 0; }}\n"
        yield Text(kind, words, f"{TREE}{tested}harness void main(int x) {{ assert f({record}, {calls - 1}) == 1; }}")
    listed = " | ".join(f"a[{i}][{j}]" for i in range(8) for j in range(16))
    yield Text(kind, f"synth --bnd-inbits 1 {SHORT}".split(), f"harness void main(int x) {{ int[16][8] a; {{| {listed} |}} = x; assert a[5][7] == x; }}")
    yield Text(kind, f"synth --bnd-inbits 1 {SHORT}".split(), f"int f(ref int n) {{ n++; return n; }} harness void main(int x) {{ int[16][8] a; int n = x; repeat (8) {{| {listed} |}} = f(n); assert a[5][7] == x + 3; }}")
    yield Text(kind, ["synth"], "harness void main(int x) { int y = {| " + " | ".join(f"x + {i}" for i in range(129)) + " |}; }")
    loose = " | ".join(f"?? + {i}" for i in range(2, 66))
    yield Text(kind, f"synth --bnd-inbits 2 --bnd-cbits 1 {SHORT}".split(), f"harness void main(int x) {{ repeat (16) x = x + {{| {loose} |}}; assert x > 0; }}")


def in_parentheses(count, text):
    return "(" * count + text + ")" * count


def nests():
    """Parentheses, operators, blocks and calls in one another, up to what may nest and past it."""
    kind = "nests"
    for count in (100, 200, 240, 249, 255, 260, 1000):
        yield from at_each_command(kind, lambda e: in_parentheses(count, e))
        yield from at_each_command(kind, lambda e: "-(" * (count // 2) + e + ")" * (count // 2))
        yield from at_each_command(kind, lambda e: "f(" * count + e + ")" * count)
        yield from at_each_command(kind, lambda e: e + " + (" + f"{e} + (" * (count // 2) + e + ")" * (count // 2) + ")")
        yield from at_each_command(kind, lambda e: f"({e} == 1 ? 2 : " * (count // 2) + e + ")" * (count // 2))
    for count in (100, 200, 240, 260):
        blocks = "{ " * count + "x = x + ??(1);" + " }" * count
        tests = "if (x >= 0) " * (count // 2) + "x = x + ??(1);"
        for body in (blocks, tests):
            yield Text(kind, f"synth --bnd-inbits 2 {SHORT}".split(), f"harness void main(int x) {{ int y = x; {body} assert x == y + 1; }}")
            yield Text(kind, ["trace", "main", "2", "--holes", "1"], f"harness void main(int x) {{ int y = x; {body} assert x == y + 1; }}")
    # levels: a call takes those of its parentheses, its statement and itself; the walk one more
    for functions, count in [(1, 50), (1, 100), (1, 120), (1, 130), (1, 180), (1, 235), (4, 20), (4, 28), (4, 31), (4, 55), (8, 10), (8, 12), (8, 14), (8, 20), (8, 27), (8, 35), (8, 100)]:
        levels = 16 * functions * (count + 3)
        calls = "".join(f"int f{k}(int n) {{ if (n <= 0) return 0; return {in_parentheses(count, f'f{(k + 1) % functions}(n - 1)')}; }}\n" for k in range(functions))
        harness = f"harness void main(int x) {{ assert f0(x + {16 * functions - 3}) == ??; }}\n"
        is_stated = levels > LEVELS - 128
        for words in ("synth --bnd-inline-amnt 16 --bnd-inbits 1", "trace main 1 --bnd-inline-amnt 16 --holes 0", f"exec f0 {16 * functions - 2} --bnd-inline-amnt 16"):
            yield Text(f"{kind} over calls", words.split(), calls + (harness if "exec" not in words else ""), is_stated)
    for generators, copies, count in [(1, 16, 20), (1, 16, 40), (1, 16, 60), (3, 6, 20), (3, 6, 30), (3, 6, 60), (1, 3, 230), (16, 1, 40), (16, 1, 60)]:
        made = "".join(f"generator int g{k}(int n) {{ if (??) return n; return {in_parentheses(count, f'g{(k + 1) % generators}(n - 1)')}; }}\n" for k in range(generators))
        is_stated = generators * copies * (count + 3) > COPIES - 32
        yield Text(f"{kind} of copies", f"synth --bnd-inbits 1 --bnd-inline-amnt {copies} {SHORT}".split(), f"{made}harness void main(int x) {{ assert g0(x) == x - 2; }}", is_stated)
    deep = "int f(int n, int m) { if (n == 0) return m; int s = 0; while (s < m) { s = s + f(n - 1, m); } return s; }\n"
    for unroll, calls in [(1, 16), (2, 16), (2, 10), (4, 6), (8, 4), (64, 2)]:
        yield Text(kind, f"synth --bnd-inbits 1 --bnd-unroll-amnt {unroll} --bnd-inline-amnt {calls} {SHORT}".split(), f"{deep}harness void main(int x) {{ assert f({calls - 1}, 1) == ??; }}")
        yield Text(kind, f"exec f {calls - 1} 1 --bnd-unroll-amnt {unroll} --bnd-inline-amnt {calls}".split(), deep)
    chain = "".join(f"int f{k}(int x) {{ int s = 0; while (s < 1) {{ s = s + 1; x = x + f{k + 1}(x); }} return x; }}\n" for k in range(127)) + "int f127(int x) { return x; }\n"
    yield Text(kind, ["exec", "f0", "1"], chain)
    yield Text(kind, ["trace", "f0", "1"], chain)
    yield Text(kind, f"synth --bnd-unroll-amnt 1 --bnd-inbits 1 {SHORT}".split(), f"{chain}harness void main(int x) {{ assert f0(x) >= ??; }}")


def at_each_command(kind, nested):
    text = f"int f(int x) {{ return x + 1; }} int g(int x) {{ return {nested('x')}; }}\n"
    yield Text(kind, ["exec", "g", "3"], text)
    yield Text(kind, ["trace", "g", "3"], text)
    yield Text(kind, f"synth --bnd-inbits 2 --bnd-inline-amnt 2 {SHORT}".split(), f"{text}harness void main(int x) {{ assert {nested('x')} == {nested('x')} + ??; }}")
    yield Text(kind, ["lower"], text)


def many():
    """Many things of one sort, up to the limits on sizes."""
    kind = "many"
    sites = "int t = 0; " + copies_of(64, "{ " + copies_of(64, "t = t + ??(1);") + " }")
    yield Text(kind, f"synth --bnd-inbits 1 {SHORT}".split(), f"harness void main(int x) {{ {sites} assert t == 4; }}")
    yield Text(kind, f"synth --bnd-inbits 1 {SHORT}".split(), "harness void main(int x) { " + copies_of(64, "{ bit[64] w = ??; assert w[x] || x == 0; }") + " }")
    for count in (100, 300, 1000):
        yield Text(kind, f"synth --bnd-inbits 1 {SHORT}".split(), "".join(f"harness void h{k}(int x) {{ assert x + ??(1) >= x; }}\n" for k in range(count)))
        yield Text(kind, f"synth --bnd-inbits 1 {SHORT}".split(), "".join(f"int f{k}(int x) {{ return x; }} int g{k}(int x) implements f{k} {{ return x + ??(1); }}\n" for k in range(count)))
        params, given = ", ".join(f"ref int p{k}" for k in range(count)), ", ".join(f"v{k}" for k in range(count))
        declared = " ".join(f"int v{k} = x;" for k in range(count))
        yield Text(kind, f"synth --bnd-inbits 1 {SHORT}".split(), f"void f({params}) {{ p0 = p1 + ??(1); }} harness void main(int x) {{ {declared} f({given}); assert v0 == x + 1; }}")
        yield Text(kind, ["exec", "main", "1"], f"void f({params}) {{ p0 = p1 + 1; }} int main(int x) {{ {declared} f({given}); return v0; }}")
        yield Text(kind, f"synth --bnd-inbits 1 {SHORT}".split(), f"harness void main({', '.join(f'int p{k}' for k in range(count))}) {{ assert p0 + ?? >= p{count - 1}; }}")
        fields = "struct W { " + " ".join(f"int f{k};" for k in range(count)) + " }\n"
        yield Text(kind, f"synth --bnd-inbits 1 {SHORT}".split(), f"{fields}harness void main(int x) {{ W w = new W({', '.join(f'f{k} = x' for k in range(count))}); {{| w(.f0 | .f1) |}} = ??; assert w.f1 == 2; }}")
        yield Text(kind, f"synth --bnd-inbits 1 {SHORT}".split(), "harness void main(int x) { int y = x; " + "y = y + x; " * count + "assert y == x * ??(12); }")
    for count in (2000, 2100, 4200):
        for by_ref in ("", "ref "):
            params, given = ", ".join(f"{by_ref}int p{k}" for k in range(count)), ", ".join("x" for _ in range(count))
            called = f"void f({params}) {{ assert p0 >= 0; }}\n"
            yield Text(kind, f"synth --bnd-inbits 1 {SHORT}".split(), f"{called}harness void main(int x) {{ f({given}); assert x >= ??(1); }}", count > ARGUMENTS)
            yield Text(kind, ["exec", "main", "1"], f"{called}void main(int x) {{ f({given}); }}")
    grid = "int[16][16] a"
    yield Text(kind, f"synth --bnd-inbits 15 {SHORT}".split(), f"harness void main({grid}) {{ assert a[??(4)][3] == a[2][3]; }}")
    yield Text(kind, f"synth --bnd-inbits 4 {SHORT}".split(), f"harness void main(int i, int j) {{ {grid}; {copies_of(16, 'a[i][j] = a[j][i] + ??(1);')} assert a[i][j] == 16; }}")
    yield Text(kind, f"synth --bnd-inbits 4 --bnd-unroll-amnt 64 {SHORT}".split(), f"harness void main(int i) {{ {grid}; for (int k = 0; k < 60; k++) a[k % 16][i] = a[i][k % 16] + k; assert a[i][3] != ??(8); }}")
    for bits in (6, 16, 32):
        yield Text(kind, f"synth --int-bits {bits} --bnd-inbits {min(bits - 1, 16)} {SHORT}".split(), "harness void main(int x, int y) { int z = x * y / (x + ??) % (y * y + 1) * x; assert z == z * ?? / 3; }")
    for inputs in ("int[64] a, bit[64] b", "bit[64][4] c", "int[8][32] d"):
        yield Text(kind, f"synth --bnd-inbits 2 {SHORT}".split(), f"harness void main({inputs}) {{ assert ??(1) == 1; }}")
    steps = "for (int i = 0; i < 60; i++) for (int j = 0; j < 60; j++) s = s + x;"
    yield Text(kind, f"synth --bnd-unroll-amnt 60 --bnd-inbits 1 {SHORT}".split(), f"harness void main(int x) {{ int s = 0; {steps} {steps} assert s == x * ??(14); }}")
    yield Text(kind, f"synth --bnd-inbits 3 {SHORT}".split(), "harness void main(int x) { minimize(??); minrepeat { x++; } minrepeat { x = x + 2; } assert x > 12; minimize(x); }")
    yield Text(kind, ["synth", "--bnd-inbits", "2"], "harness void main(int x) { minimize(??); minrepeat { x++; } assert x > 4; minimize(x); }")


def lowerings():
    """Blocks of cases in one another, and types of 16 variants of 16 fields."""
    kind = "lowerings"
    for count in (50, 100, 240, 500, 511, 600):
        inside = "return 1;"
        for _ in range(count):
            inside = f"switch (e) {{ case V: {{ {inside} }} }}"
        yield Text(kind, ["lower"], f"adt A {{ V {{ int n; }} }}\nint f(A e) {{ {inside} }}\n", count > CASES - 8)
    variants = " ".join(f"V{v} {{ " + " ".join(f"{ty} f{k};" for k, ty in enumerate(["int", "bit", "A", "int[3]"] * 4)) + " }" for v in range(16))
    cases_of = " ".join(f"case V{v}: {{ x.f0 = x.f4; x.f2 = new V{v}(f0 = 1, f6 = x); return x.f0; }}" for v in range(16))
    for count in (1, 20, 60):
        yield Text(kind, ["lower"], f"adt A {{ {variants} }}\n" + "".join(f"int f{n}(A x) {{ switch (x) {{ {cases_of} }} }}\n" for n in range(count)))


# Texts at hand.


def at_hand():
    for path in sorted((TOP / "bench/sketches").glob("*.sk")):
        text = path.read_text()
        yield Text("bench/sketches", text.split("\n")[0].removeprefix("// ").split(), text)
    for path in sorted((TOP / "examples").glob("*.sk")):
        for words in (["synth"], ["lower"], ["exec", "main"]):
            yield Text("examples", words, path.read_text())
    for path in sorted(cases.DATA.glob("*.txt")):
        for _, line, settings, text, answers in cases.rows(path):
            if settings in ([], ["once"]) and line.split()[:1]:
                words = ["" if w == "''" else w.replace("␣", " ") for w in line.split()]
                yield Text("rows", words, text, any("no memory" in head for head, _ in answers))


# Random texts.


def options(source):
    """Bounds for a random text."""
    said = []
    for name, values in [("cbits", [1, 2, 3]), ("inbits", [1, 1, 2]), ("unroll-amnt", [0, 1, 2, 3]), ("inline-amnt", [1, 2, 3, 4])]:
        if name == "inbits" or source.random() < 0.8:
            said += [f"--bnd-{name}", str(source.choice(values))]
    return said + (["--int-bits", str(source.choice([6, 8, 32]))] if source.random() < 0.3 else [])


def argument(source, ty):
    length = {"bit[3]": 3, "int[3]": 3}.get(ty, 1)
    return ",".join(str(source.randint(0, 1)) for _ in range(length))


def damaged(source, text):
    """A text with pieces taken out, doubled or put elsewhere."""
    pieces = re.findall(r"\w+|\s+|[^\w\s]", text)
    for _ in range(source.choice([1, 1, 2, 5])):
        at, other = source.randrange(len(pieces)), source.randrange(len(pieces))
        way = source.randrange(4)
        pieces[at : at + 1] = [[], [pieces[at]] * 2, [pieces[other]], [pieces[other], pieces[at]]][way]
    return "".join(pieces)


def random_texts(source, index):
    """The text of a number. What follows on how it ends is a function of that."""
    way = index % 10
    if way < 5:
        maker = makers.Maker(source, True, source.randint(0, 4))
        text, params = maker.text()
        words = options(source)
        short = source.choice([SHORT, "--rounds 1", "--rounds 2 --conflicts 100", "--rounds 20 --conflicts 5000"]).split()
        given = [argument(source, ty) for ty in params]
        if source.random() < 0.1:
            return Text("damaged", ["synth", *words, *short], damaged(source, text)), None
        return Text("sketches", ["synth", *words, *short], text), lambda ended: followed(ended, words, given, text)
    if way < 7:
        text, params = makers.Maker(source, False, source.randint(1, 5)).text()
        word = source.choice(["exec", "exec", "trace"])
        return Text("programs", [word, "main", *options(source), *[argument(source, ty) for ty in params]], text), None
    if way < 9:
        text = makers.Variants(source).text()
        if source.random() < 0.1:
            return Text("damaged", ["lower"], damaged(source, text)), None
        words = ["synth", *options(source), *SHORT.split()]
        return Text("lowerings", ["lower"], text), lambda ended: [Text("lowered", words, ended.out)] if ended.status == 0 else []
    random.seed(source.random())
    text = first_faults.Writer().text()
    harness = "harness void main(int x, bit b, int[4] a, bit[4] v) { int[3][2] g; S p = new S(u = x); f0(x, 3, b, a, v, g, p); }\n"
    return Text("statements", ["synth", *options(source), *SHORT.split()], text + harness), None


def followed(ended, words, given, text):
    """The run step by step of the choice that a search wrote, and a run of what it completed."""
    choice = re.search(r"^//@ (?:holes|choice)((?: \d+)*)$", ended.out, re.M)
    if choice:
        numbers = ["--holes", ",".join(choice[1].split())] if choice[1] else []
        yield Text("traces", ["trace", "main", *words, *numbers, *given], text)
    if ended.status == 0:
        yield Text("completions", ["exec", "main", *words, *given], ended.out)


# What came.

def told_of(text, ended):
    """What a run counts as, and whether it is told."""
    if ended.status == MEMORY_WANTED:
        if text.is_stated:
            return "17 as stated", False
        return ("17 full", False) if ended.peak > GIVEN.memory << 18 else ("17 WANT", True)
    if ended.status in (-signal.SIGXCPU, -signal.SIGKILL):
        return "cut off", False
    return (str(ended.status), False) if ended.status >= 0 else (f"signal {-ended.status}", True)


def tried(case):
    """The runs of a case: a text at hand, or the number of a random one."""
    texts = [(case, None)] if isinstance(case, Text) else [random_texts(random.Random(f"{GIVEN.seed} {case}"), case)]
    found = []
    for text, follows in texts:
        if GIVEN.only not in text.kind:
            continue
        ended = run(text.words, text.text)
        counted, is_told = told_of(text, ended)
        found.append((text.kind, counted, text if is_told else None, ended.peak))
        if follows:
            texts += [(text, None) for text in follows(ended)]
    return found


def kept(folder, number, text, counted):
    os.makedirs(folder, exist_ok=True)
    path = pathlib.Path(folder) / f"{number}.sk"
    path.write_text(text.text, encoding="latin1", errors="replace")
    print(f"{counted}: {text.kind}: {' '.join(text.words)} < {path} ({len(text.text)} bytes)", flush=True)


def main():
    parser = argparse.ArgumentParser()
    parser.add_argument("program")
    parser.add_argument("n", nargs="?", type=int, default=1000)
    parser.add_argument("seed", nargs="?", default="1")
    parser.add_argument("--jobs", type=int, default=1)
    parser.add_argument("--limit", type=int, default=10)
    parser.add_argument("--memory", type=int, default=4096)
    parser.add_argument("--only", default="")
    parser.add_argument("--keep", default="wants-found")
    parser.add_argument("--random", action="store_true", help="the random texts alone")
    given = parser.parse_args()
    given.program = os.path.abspath(given.program)
    listed = [] if given.random else [text for texts in (families(), at_hand()) for text in texts if given.only in text.kind]
    counts, told, peak = collections.defaultdict(collections.Counter), 0, 0
    with multiprocessing.Pool(given.jobs, begin, (given,)) as pool:
        for runs in pool.imap_unordered(tried, [*listed, *range(given.n)], chunksize=8):
            for kind, counted, text, held in runs:
                counts[kind][counted] += 1
                peak = max(peak, held)
                if text:
                    told += 1
                    kept(given.keep, told, text, counted)
    for kind, ends in counts.items():
        print(f"{kind}: {sum(ends.values())} runs: " + ", ".join(f"{end}: {n}" for end, n in sorted(ends.items())))
    print(f"{sum(sum(ends.values()) for ends in counts.values())} runs, {told} told, greatest memory {peak >> 20} MiB")
    return 1 if told else 0


if __name__ == "__main__":
    sys.exit(main())
