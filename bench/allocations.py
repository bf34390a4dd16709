#!/usr/bin/env python3
"""Has each allocation of the program refused, one run each, and compares how the run ends.

    python3 bench/allocations.py PROGRAM [TRIES]

PROGRAM is crates/sketch/out/sketch as `rt run` leaves it. It takes memory by `malloc` and `realloc` of the C library, which a shim in C, loaded before
that library, counts and refuses: the N-th call of the program alone, or it and each later one. With each, a run has to end with status 17, the line
`no memory` and nothing on standard output, or, where the words are still to be had, with status 24 and `no words`, or with all as it is with ample memory; the line on standard error may lack, since it takes memory itself. Each allocation of a run is tried where there are at most TRIES
(4,000 if it is not given); of a longer run the first half of TRIES, and of the others each in equal strides.

It prints a line for each run: its allocations, how many were tried, and in how many runs of both kinds the answer was out of memory (`refused`), that there
are no words (`no words`), or as it is with ample memory (`same`); and a line for each run that ended otherwise. It ends with status 1 if there is one.
"""
import os
import subprocess
import sys
import tempfile
from concurrent.futures import ThreadPoolExecutor

TOP = os.path.dirname(os.path.dirname(os.path.abspath(__file__)))
REFUSED = (17, b"", b"no memory\n")
NO_WORDS = (24, b"", b"no words\n")

# Only calls that come from the program itself are counted. The number of the call that fails, whether all later ones fail too,
# and the file that gets the count come by the environment.
SHIM = r"""
#define _GNU_SOURCE
#include <dlfcn.h>
#include <fcntl.h>
#include <link.h>
#include <stdio.h>
#include <stdlib.h>
#include <unistd.h>

static unsigned long calls, refused, low, high;
static int onwards;
static void *(*next_malloc)(size_t);
static void *(*next_realloc)(void *, size_t);

static int program(struct dl_phdr_info *it, size_t size, void *data) {
    for (int i = 0; i < it->dlpi_phnum; i++)
        if (it->dlpi_phdr[i].p_type == PT_LOAD) {
            unsigned long from = it->dlpi_addr + it->dlpi_phdr[i].p_vaddr;
            if (!low) low = from;
            high = from + it->dlpi_phdr[i].p_memsz;
        }
    return 1;
}

__attribute__((constructor)) static void begin(void) {
    next_malloc = dlsym(RTLD_NEXT, "malloc");
    next_realloc = dlsym(RTLD_NEXT, "realloc");
    refused = strtoul(getenv("REFUSED"), 0, 10);
    onwards = getenv("ONWARDS") != 0;
    dl_iterate_phdr(program, 0);
}

__attribute__((destructor)) static void end(void) {
    char text[32];
    int file = getenv("COUNT") ? open(getenv("COUNT"), O_WRONLY | O_CREAT | O_TRUNC, 0600) : -1;
    if (file >= 0) write(file, text, snprintf(text, sizeof text, "%lu", calls));
}

static int fails(unsigned long from) {
    if (from < low || from >= high) return 0;
    calls++;
    return refused && (onwards ? calls >= refused : calls == refused);
}

void *malloc(size_t size) {
    if (!next_malloc) next_malloc = dlsym(RTLD_NEXT, "malloc");
    return fails((unsigned long)__builtin_return_address(0)) ? 0 : next_malloc(size);
}

void *realloc(void *old, size_t size) {
    if (!next_realloc) next_realloc = dlsym(RTLD_NEXT, "realloc");
    return fails((unsigned long)__builtin_return_address(0)) ? 0 : next_realloc(old, size);
}
"""

# A text with every form of the language.
EVERY = """
int N = 2;
struct Node { int value; Node next; }
generator int leaf(int x) { return {| x | ?? | x + 1 |}; }
void add(ref int to, int by) { to = to + by; }
bit[4] same(bit[4] b) { return b; }
bit[4] turned(bit[4] b) implements same {
    bit[4] r = {0, 0, 0, 0};
    r[3] = b[3];
    r = (r | (b & {1, 1, 1, 0})) ^ ??(4);
    bit[2] low = b[0::2];
    assert low[0] == b[0] && (!true || b[1] == low[1]);
    return r << 0 >> 0;
}
harness void main(int x, bit c) {
    assume x < 3;
    int[3] list = {x, 1};
    Node first = new Node(value = x, next = null);
    Node second = new Node(next = first);
    second.value = (c ? 1 : N) * 2 - -x;
    int s = 0;
    { int i = 0; while (i < N) { s += list[i]; i++; } }
    for (int j = 0; j < 2; j++) { add(s, j); }
    if (second.next != null) { s = s + second.next.value; } else { assert false; }
    repeat (??(1)) { s = s + 1; }
    minrepeat { s = s + 1; }
    reorder { list[2] = leaf(s); list[2] = list[2] + c; }
    minimize(s > 3);
    assert list[2] == s + c && s == 2 * x + 1 + 1 + 1 && s / 1 % 100 == s;
    return;
}
"""

# What the runs are: words, a file of examples/ or a text, and the status with ample memory. `exec`, `trace` and `prune` read what EVERY is completed to, and `check` has
# behind the sketch what `synth --cert` writes for it.
RUNS = [
    ("synth", EVERY, 0),
    ("exec main 2 1", EVERY, 0),
    ("synth", "doubled.sk", 0),
    ("synth", "lowest_zero.sk", 0),
    ("synth", "no_multiple.sk", 1),
    ("synth", "fewest_steps.sk", 0),
    ("synth --bnd-unroll-amnt 20", "cheapest_mask.sk", 0),
    ("synth", "last_comparison.sk", 0),
    ("synth", "turned_list.sk", 0),
    ("synth --rounds 1", "two_steps.sk", 2),
    ("synth --cert", "doubled.sk", 0),
    ("synth --cert", "fewest_steps.sk", 0),
    ("check", "doubled.sk", 0),
    ("check", "fewest_steps.sk", 0),
    ("self 1", "", 0),
    ("trace main 2 1", EVERY, 0),
    ("trace f 1 --holes 2", "void f(int x) { assert x == ??; } harness void main() { }", 4),
    ("lower", "expression.sk", 0),
    ("prune", EVERY, 0),
    ("prune", "doubled.sk", 18),
    ("all 3", "doubled.sk", 0),
    ("why", "no_multiple.sk", 0),
    ("why", "doubled.sk", 7),
    ("exec reversal 1,2,3,4", "reversal.sk", 0),
    ("exec coins 68 0,0,0,0", "coins.sk", 0),
    ("exec number_of 1,0,1,1,0,0,1,0", "gray.sk", 0),
    ("exec f 1", "void f(int x) { assert x == 0; } harness void main() { }", 4),
    ("exec f 1", "void f(int x) { assume x == 0; } harness void main() { }", 5),
    ("exec root 1 2", "root.sk", 18),
    ("synth", "harness void f(int x) { assert x + == ??; }", 11),
    ("synth", "harness void f(int x) { int y = true; assert z == ??; }", 12),
    ("synth --bnd-cbits 17", "doubled.sk", 10),
    ("--help", "", 0),
    ("--version", "", 0),
]


def text_of(program, words, named):
    if named is EVERY and words.startswith(("exec", "trace", "prune")):
        return subprocess.run([program, "synth"], input=EVERY.encode(), capture_output=True, check=True).stdout
    if not named.endswith(".sk"):
        return named.encode()
    with open(f"{TOP}/examples/{named}", "rb") as file:
        text = file.read()
    if words != "check":
        return text
    return text + b"//%%\n" + subprocess.run([program, "synth", "--cert"], input=text, capture_output=True, check=True).stdout


class Run:
    """A run of the program, in a folder of the shim's."""

    def __init__(self, program, folder, words, text):
        self.line, self.text, self.folder = [program, *words.split()], text, folder

    def ends(self, **settings):
        env = {"LD_PRELOAD": f"{self.folder}/shim.so", "REFUSED": "0", **settings}
        ran = subprocess.run(self.line, input=self.text, capture_output=True, env=env)
        return ran.returncode, ran.stdout, ran.stderr

    def counted(self):
        """How it ends with ample memory, and the number of its allocations."""
        ended = self.ends(COUNT=f"{self.folder}/count")
        with open(f"{self.folder}/count", encoding="utf-8") as file:
            return ended, int(file.read())


def tried(count, tries):
    if count <= tries:
        return range(1, count + 1)
    half = tries // 2
    return [*range(1, half + 1), *range(half + 1, count + 1, -(-(count - half) // half))]


def told_as(ended, ample):
    """How a run ended, with the line on standard error that lacks where it wrote none."""
    for whole in (ample, REFUSED, NO_WORDS):
        if ended == (*whole[:2], b""):
            return whole
    return ended


def judge(run, ample, number, pool):
    """How many runs with one of these allocations refused end out of memory, without words, and as with ample memory; the others."""
    kinds = [(n, how) for n in number for how in ({}, {"ONWARDS": "1"})]
    ended = [told_as(it, ample) for it in pool.map(lambda it: run.ends(REFUSED=str(it[0]), **it[1]), kinds)]
    wrong = [(*kind, it) for kind, it in zip(kinds, ended) if it not in (REFUSED, NO_WORDS, ample)]
    return ended.count(REFUSED), ended.count(NO_WORDS), ended.count(ample), wrong


def main(program, tries="4000"):
    program, wrong = os.path.abspath(program), 0
    with tempfile.TemporaryDirectory() as folder, ThreadPoolExecutor(2) as pool:
        with open(f"{folder}/shim.c", "w", encoding="utf-8") as file:
            file.write(SHIM)
        subprocess.run(["cc", "-O2", "-w", "-shared", "-fPIC", "-o", f"{folder}/shim.so", f"{folder}/shim.c", "-ldl"], check=True)
        for words, named, status in RUNS:
            run = Run(program, folder, words, text_of(program, words, named))
            ample, count = run.counted()
            number = tried(count, int(tries))
            refused, wordless, same, others = judge(run, ample, number, pool)
            print(f"{words} < {'every form' if named is EVERY else named or 'nothing'}: status {ample[0]}, {count} allocations, {len(number)} tried, {refused} refused, {wordless} no words, {same} same", flush=True)
            if ample[0] != status:
                others.append((0, {}, ample))
            for ended in {it for _, _, it in others}:
                print(f"  {ended}: {[f'{n} on' if how else str(n) for n, how, it in others if it == ended][:40]}")
            wrong += len(others)
    print(f"{wrong} ended otherwise")
    return 1 if wrong else 0


if __name__ == "__main__":
    if not 2 <= len(sys.argv) <= 3:
        sys.exit(__doc__)
    sys.exit(main(*sys.argv[1:]))
