#!/usr/bin/env python3
"""Times the steps before the search on texts of a mebibyte that are made to be dear, beside an ordinary one.

    worst.py PROGRAM [RUNS] [--only WORD]

PROGRAM is the built `sketch`. Each text has at most a mebibyte, and asks much of one step: of names, patterns, types, copies, sizes, or tags. A run is cut off after
120 seconds, and has 6 GiB of memory. A line gives the step, the text, how the program ended, the median of RUNS (3) of the processor time of the whole process, as a multiple of that of a mebibyte of
functions under the same command."""
import argparse
import os
import resource
import statistics
import subprocess
import sys

MEBIBYTE = 1 << 20
LIMIT, ROOM = 120, 6 << 30
END = "int main() { return 0; }\n"


def filled(row, head="", tail=END, size=MEBIBYTE):
    """Rows between a head and a tail until the text has this size."""
    rows, count, total = [], 0, len(head) + len(tail)
    while total + len(row(count)) <= size:
        rows.append(row(count))
        total += len(rows[-1])
        count += 1
    return head + "".join(rows) + tail


def functions():
    return filled(lambda i: f"int f{i}(int x) {{ return x + f{max(i - 1, 0)}(x); }}\n")


def repeated(piece, head, tail):
    """A piece as often as it fits."""
    return head + piece * ((MEBIBYTE - len(head) - len(tail)) // len(piece)) + tail


# names


def long_names():
    return filled(lambda i: f"int {'n' * 250}{i}(int x) {{ return x; }}\n")


def last_field(count=20000):
    fields = "".join(f"int f{i}; " for i in range(count))
    return repeated(f"s.f{count - 1} = s.f0;\n", f"struct S {{ {fields}}}\nvoid g(S s) {{\n", "}\n" + END)


def many_arguments():
    count = 70000
    params, given = ", ".join(f"int p{i}" for i in range(count)), "1, " * (count - 1) + "1"
    return f"void f({params}) {{ }}\nvoid g() {{ f({given}); }}\n{END}"


def shadowed():
    inside = "".join("{ int v%d = 0; " % k for k in range(120)) + "}" * 120
    return filled(lambda i: f"void f{i}() {{ {inside} }}\n")


def one_scope():
    return filled(lambda i: f"int v{i} = v{i // 2};\n" if i else "int v0 = 0;\n", "void f() {\n", "}\n" + END)


def set_fields(count=30000):
    fields, given = "".join(f"int f{i}; " for i in range(count)), ", ".join(f"f{i} = 1" for i in reversed(range(count)))
    return f"struct S {{ {fields}}}\nvoid g() {{ S s = new S({given}); }}\n{END}"


# patterns


def many_patterns():
    pattern = "{| x " + "(+ x | - x) " * 7 + "|}"
    return filled(lambda i: f"int f{i}(int x) {{ return {pattern}; }}\n")


def long_strings():
    pattern = "{| x " + "(+ x | - x)" * 7 + "+x" * 230 + " |}"
    return filled(lambda i: f"int f{i}(int x) {{ return {pattern}; }}\n")


def strings_of_no_type():
    pattern = "{| x | x " + "(+ x | [x])" * 6 + "|}"
    return filled(lambda i: f"int f{i}(int x) {{ return {pattern}; }}\n")


# types


def deep_sums():
    return filled(lambda i: f"int f{i}(int x) {{ return {'x+(' * 120}x{')' * 120}; }}\n")


def deep_choices():
    return filled(lambda i: f"int f{i}(int x, bit b) {{ return {'b?1:(' * 120}x{')' * 120}; }}\n")


def deep_bits():
    return filled(lambda i: f"bit f{i}(int x, bit b) {{ return {'b==(' * 120}x==1{')' * 120}; }}\n")


def wide_arrays():
    row = "{" + ",".join("1" * 1 for _ in range(16)) + "}"
    grid = "{" + ",".join([row] * 16) + "}"
    return filled(lambda i: f"void f{i}(bit b) {{ int[16][16] a = b ? {grid} : {grid}; }}\n")


def long_bits():
    word = "{" + ",".join(["1"] * 64) + "}"
    return filled(lambda i: f"bit[64] f{i}(bit[64] b) {{ return b{''.join(f' ^ {word}' for _ in range(60))}; }}\n")


# copies and sizes


def copies():
    return filled(lambda i: f"generator int g{i}(int x) {{ return {'g%d(x)' % (i - 1) if i else 'x'} + {'g%d(x)' % (i - 1) if i else 'x'}; }}\n", "", "harness void main(int x) { assert g20(x) == x; }\n")


def calls_in_calls():
    return filled(lambda i: f"int f{i}(int x) {{ return f{max(i - 1, 0)}(x) + f{max(i - 1, 0)}(x); }}\n", "", "harness void main(int x) { assert f40(x) == x; }\n")


def walked(depth=100):
    """Calls in loops that make no turn, each function called twice by the one before."""
    inside = "".join(f"void f{i}(int x) {{ while (x > 0) {{ f{i + 1}(x); f{i + 1}(x); }} }}\n" for i in range(depth))
    return filled(lambda i: f"void h{i}(int x) {{ x = x + 1; }}\n", inside + f"void f{depth}(int x) {{ }}\nharness void main(int x) {{ f0(x); }}\n", "")


def many_harnesses():
    return filled(lambda i: f"harness void h{i}(int x) {{ assert x == x; }}\n", "", "")


def repeats():
    return filled(lambda i: f"void f{i}(int x) {{ repeat (64) repeat (64) repeat (64) x = x + 1; }}\n")


def empty_repeats():
    return filled(lambda i: f"void f{i}(int x) {{ {'repeat (64) ' * 60}{{ }} }}\n")


def no_repeats():
    return filled(lambda i: f"void f{i}(int x) {{ repeat (0) {'repeat (64) ' * 60}x = x + 1; }}\n")


# tags

TYPES = "adt A { V { int n; A m; } W { int k; } }\n"


def switches():
    return filled(lambda i: f"int f{i}(A x) {{ switch (x) {{ case V: {{ return x.n; }} case W: {{ return x.k; }} }} }}\n", TYPES)


def nested_switches(depth=100):
    head, tail = "switch (x) { case V: { " * depth, "} } " * depth
    piece = "x.n = x.n + 1;\n"
    return repeated(piece, f"{TYPES}void f(A x) {{ {head}", f"{tail} }}\n")


def nested_assigned(depth=100):
    head = "".join(f"switch (x{k}) {{ case V: {{ " for k in range(depth))
    params = ", ".join(f"A x{k}" for k in range(depth))
    return repeated("y = y + 1;\n", f"{TYPES}void f({params}, int y) {{ {head}", "} } " * depth + "}\n")


def many_variants():
    kinds = "".join(f"adt A{i} {{ " + " ".join(f"V{i}_{v} {{ " + " ".join(f"int f{k};" for k in range(16)) + " }" for v in range(16)) + " }\n" for i in range(400))
    return filled(lambda i: f"A{i % 400} f{i}() {{ return new V{i % 400}_15(f0 = 1, f15 = 2); }}\n", kinds, "")


ORDINARY = {"exec": (["exec", "main"], functions()), "synth": (["synth"], functions()), "lower": (["lower"], functions())}
TEXTS = [
    ("names", "long names alike in 250 bytes", "exec", long_names),
    ("names", "the last of 20,000 fields, again and again", "exec", last_field),
    ("names", "a call of 70,000 arguments", "exec", many_arguments),
    ("names", "variables in 120 blocks one inside another", "exec", shadowed),
    ("names", "one block of variables", "exec", one_scope),
    ("names", "a record with 30,000 fields set, the last first", "exec", set_fields),
    ("patterns", "patterns of 128 strings", "exec", many_patterns),
    ("patterns", "patterns of 128 strings of 238 operands", "exec", long_strings),
    ("patterns", "patterns of which most strings have no type", "exec", strings_of_no_type),
    ("types", "sums 240 levels deep", "exec", deep_sums),
    ("types", "choices 240 levels deep", "exec", deep_choices),
    ("types", "comparisons 240 levels deep", "exec", deep_bits),
    ("types", "arrays of 256 numbers as choices", "exec", wide_arrays),
    ("types", "sums of 64 bits in braces", "exec", long_bits),
    ("copies", "generators that call the one before twice", "synth", copies),
    ("copies", "repeats of 64 in repeats", "synth", repeats),
    ("copies", "repeats of nothing, 60 one inside another", "synth", empty_repeats),
    ("copies", "no repeat of 60 repeats", "synth", no_repeats),
    ("sizes", "functions that call the one before twice", "synth", calls_in_calls),
    ("sizes", "loops without turns that call the next function twice", "synth --bnd-unroll-amnt 0", walked),
    ("sizes", "as many harnesses", "synth", many_harnesses),
    ("tags", "a function of one switch", "lower", switches),
    ("tags", "a switch in a switch, 100 deep, round a long body", "lower", nested_switches),
    ("tags", "the same of 100 variables", "lower", nested_assigned),
    ("tags", "400 types of 16 variants of 16 fields", "lower", many_variants),
]


def run(program, words, text):
    """How the program ends, and its processor time."""
    before = resource.getrusage(resource.RUSAGE_CHILDREN)

    def cap():
        resource.setrlimit(resource.RLIMIT_CPU, (LIMIT, LIMIT + 1))
        resource.setrlimit(resource.RLIMIT_AS, (ROOM, ROOM))

    asked = subprocess.Popen([program, *words], stdin=subprocess.PIPE, stdout=subprocess.DEVNULL, stderr=subprocess.PIPE, preexec_fn=cap)
    _, said = asked.communicate(text.encode())
    used = resource.getrusage(resource.RUSAGE_CHILDREN)
    ended = said.decode("latin1").split("\n")[0] or str(asked.returncode)
    return ended if asked.returncode >= 0 else f"signal {-asked.returncode}", used.ru_utime + used.ru_stime - before.ru_utime - before.ru_stime


def timed(program, words, text, runs):
    ends = [run(program, words, text) for _ in range(runs)]
    return ends[0][0], statistics.median(time for _, time in ends)


def main():
    parser = argparse.ArgumentParser()
    parser.add_argument("program")
    parser.add_argument("runs", nargs="?", type=int, default=3)
    parser.add_argument("--only", default="")
    given = parser.parse_args()
    program, units = os.path.abspath(given.program), {}
    for name, (words, text) in ORDINARY.items():
        ended, units[name] = timed(program, words, text, given.runs)
        print(f"ordinary | functions, each of which calls the one before | {' '.join(words)} | {ended} | {units[name]:.3f} s", flush=True)
    for step, title, line, make in TEXTS:
        if given.only not in f"{step} {title}":
            continue
        text = make()
        words = ["exec", "main"] if line == "exec" else line.split()
        ended, time = timed(program, words, text, given.runs)
        print(f"{step} | {title} | {' '.join(words)}, {len(text)} bytes | {ended} | {time:.3f} s, {time / units[line.split()[0]]:.1f}", flush=True)


if __name__ == "__main__":
    sys.exit(main())
