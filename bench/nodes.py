#!/usr/bin/env python3
"""Times runs over nodes, and runs of filled programs beside them.

    python3 bench/nodes.py SYM_CASES SKETCH [RUNS]

SYM_CASES and SKETCH are the programs of the crates of those names, built by LLVM (out/rows_sym, out/sketch). Texts are made here, and each program is run on
them one after another, RUNS times (5 if it is not given); each time is the median of the user times of whole processes, less that of a process on the same text
whose function does nothing.

Two tables are printed: what a statement costs that is done so many times over nodes, with holes and inputs open (nanoseconds each, and the greatest memory of the
process); and what functions of examples/ cost on constants with the choice given, beside `sketch exec`. How many nodes are made the rows of `rows_sym` say
(data/nodes.txt).
"""
import os
import resource
import statistics
import subprocess
import sys
import tempfile

TOP = os.path.dirname(os.path.dirname(os.path.abspath(__file__)))
PRAGMA = 'pragma options "--bnd-unroll-amnt 64 --bnd-inline-amnt 8"; '
HARNESS = "harness void main(int x) { } "
LIST = "struct Node { int value; Node next; } "

# turns of loops in each other, and how often a statement in the innermost is done
TIMES = {1024: (1, 16, 64), 4096: (1, 64, 64), 16384: (4, 64, 64), 65536: (16, 64, 64), 262144: (64, 64, 64)}
STATEMENTS = {
    "`s = s + x`": ("s = s + x;", ""),
    "`s = s * ??(3) + x`": ("s = s * ??(3) + x;", ""),
    "`if (s > x) s = s - x`": ("if (s > x) s = s - x;", "s = x * x;"),
    "`a[x] = s` of 64 elements": ("a[x] = s; s = s + x;", "int[64] a;"),
}

# functions of examples/ on constants, done 1,000 times or so
CONSTANTS = {
    "greatest_divisor.sk": "int many() { int s = 0; for (int i = 0; i < 64; i++) for (int j = 0; j < 16; j++) s = s + greatest_divisor(i + 1000, j + 1); return s; }",
    "power.sk": "int many() { int s = 0; for (int i = 0; i < 64; i++) for (int j = 0; j < 16; j++) s = s + power(i, j); return s; }",
    "root.sk": "int many() { int s = 0; for (int i = 0; i < 64; i++) for (int j = 0; j < 16; j++) s = s + root(i * 16 + j); return s; }",
    "sorted.sk": "int many() { int s = 0; for (int i = 0; i < 64; i++) for (int j = 0; j < 16; j++) { int[4] x = {j, 9 - i, 3 * i, 7}; x = sorted(x); s = s + x[i % 4]; } return s; }",
    "transposed.sk": "int many() { int[3][3] m = {{1, 2, 3}, {4, 5, 6}, {7, 8, 9}}; for (int i = 0; i < 64; i++) for (int j = 0; j < 15; j++) m = transposed(m); return m[0][2]; }",
}


def loops(turns, inner, before):
    a, b, c = turns
    return (
        f"int f(int x) {{ int s = x; {before} for (int i = 0; i < {a}; i++) for (int j = 0; j < {b}; j++) "
        f"for (int k = 0; k < {c}; k++) {{ {inner} }} return s; }} "
    )


def walk(turns):
    a, b, _ = turns
    return (
        LIST + "int f(int x) { int s = x; Node list = null; for (int i = 0; i < 64; i++) list = new Node(value = x + i, next = list); "
        f"for (int i = 0; i < {a}; i++) for (int j = 0; j < {b}; j++) {{ Node at = list; while (at != null) {{ s = s + at.value; at = at.next; }} }} return s; }} "
    )


def spent(command, **streams):
    """The user time of a process, in seconds, and its greatest memory, in MiB."""
    with subprocess.Popen(command, stdout=subprocess.PIPE, stderr=subprocess.STDOUT, **streams) as ran:
        told = ran.stdout.read().decode()
        _, status, usage = os.wait4(ran.pid, 0)
        ran.returncode = os.waitstatus_to_exitcode(status)
    if ran.returncode != 0:
        sys.exit(told)
    return usage.ru_utime, usage.ru_maxrss / 1024


class Bench:
    def __init__(self, cases, sketch, folder, runs):
        self.cases, self.sketch, self.folder, self.runs = cases, sketch, folder, runs

    def file(self, name, text):
        path = f"{self.folder}/{name}"
        with open(path, "w", encoding="utf-8") as file:
            file.write(text)
        return path

    def median(self, command, path=None):
        found = []
        for _ in range(self.runs):
            if path is None:
                found.append(spent(command))
            else:
                with open(path, "rb") as text:
                    found.append(spent(command, stdin=text))
        return statistics.median(it[0] for it in found), max(it[1] for it in found)

    def over_nodes(self, text, function, line):
        rows = self.file("rows.txt", f"=== a row\n{function} 32\n---\n{text}\n---\n{line}\n")
        return self.median([self.cases, rows])

    def row(self, title, done, text):
        idle = PRAGMA + HARNESS + "int f(int x) { return x; }"
        hole = "??" in text
        time, memory = self.over_nodes(PRAGMA + HARNESS + text, "f", ("0" if hole else "") + " : nodes 1000000000")
        nothing, _ = self.over_nodes(idle, "f", " : nodes 1000000000")
        print(f"| {title} | {done:,} | {(time - nothing) / done * 1e9:.0f} | {memory:.0f} |", flush=True)

    def beside(self, name, many):
        with open(f"{TOP}/examples/{name}", encoding="utf-8") as file:
            text = PRAGMA + HARNESS + " ".join(line for line in file.read().splitlines() if not line.strip().startswith("//")) + " " + many
        idle = "int nothing() { return 0; }"
        nodes, _ = self.over_nodes(text + idle, "many", " : nodes constant")
        no_nodes, _ = self.over_nodes(text + idle, "nothing", " : nodes constant")
        path = self.file("text.sk", text + idle)
        run, _ = self.median([self.sketch, "exec", "--int-bits", "32", "many"], path)
        no_run, _ = self.median([self.sketch, "exec", "--int-bits", "32", "nothing"], path)
        print(f"| `{name}` | {(run - no_run) * 1e3:.1f} | {(nodes - no_nodes) / max(run - no_run, 1e-4):.1f} |", flush=True)


def main(cases, sketch, runs="5"):
    resource.setrlimit(resource.RLIMIT_AS, (8 << 30, 8 << 30))
    with tempfile.TemporaryDirectory() as folder:
        bench = Bench(os.path.abspath(cases), os.path.abspath(sketch), folder, int(runs))
        print("load", open("/proc/loadavg", encoding="utf-8").read().split()[0])
        print("| statement | done | ns each | MiB |\n|---|---|---|---|")
        for title, (inner, before) in STATEMENTS.items():
            for done, turns in TIMES.items():
                bench.row(title, done, loops(turns, inner, before))
        for done, turns in TIMES.items():
            bench.row("a walk over a list of 64", done, walk(turns))
        print("| function | `exec`, ms | over nodes, beside `exec` |\n|---|---|---|")
        for name, many in CONSTANTS.items():
            bench.beside(name, many)


if __name__ == "__main__":
    if not 3 <= len(sys.argv) <= 4:
        sys.exit(__doc__)
    main(*sys.argv[1:])
