#!/usr/bin/env python3
"""Times how the program reads texts that it does not complete.

    python3 bench/reading.py PROGRAM

PROGRAM is the built `sketch` (`crates/sketch/out/sketch` after `rt ci`). Each text is read nine times, one text after another;
a line gives the text, how the program ended, and the median of the processor time of the whole program, in seconds and as a
multiple of that of half a mebibyte of functions.
"""
import resource
import statistics
import subprocess
import sys

FUNCTION = b"""int f%d(int a, bit[4] b, int[3] c) {
    int x = a * 3 + (a - 2) / (c[1] + 7);
    if (x > a && !(b[0])) { x = x + c[2]; } else { x = x - 1; }
    while (x < 100) { x = x + a * 2; }
    assert x >= 0 || a < 3;
    return x;
}
"""


def functions(size):
    """As many functions as have at most this many bytes."""
    text, number = [], 0
    left = size
    while len(FUNCTION % number) <= left:
        text.append(FUNCTION % number)
        left -= len(text[-1])
        number += 1
    return b"".join(text)


def in_parentheses(count):
    return b"int f() { return " + b"(" * count + b"1" + b")" * count + b"; }\n"


TEXTS = {
    "half a mebibyte of functions": functions(1 << 19),
    "a mebibyte of functions": functions(1 << 20),
    "a mebibyte of blanks": b" " * (1 << 20),
    "1,000 pairs of parentheses": in_parentheses(1000),
    "100,000 pairs of parentheses": in_parentheses(100000),
    "a pattern of 2^40 strings": b"int f(int a) { return {| " + b"a (+ | -) " * 40 + b"a |}; }\n",
}


def spent():
    used = resource.getrusage(resource.RUSAGE_CHILDREN)
    return used.ru_utime + used.ru_stime


def run(program, text):
    """How the program ends on a text, and the processor time that it takes."""
    before = spent()
    ended = subprocess.run([program, "synth"], input=text, capture_output=True)
    return ended.stderr.decode().strip() or str(ended.returncode), spent() - before


def main():
    times = {name: [] for name in TEXTS}
    ends = {}
    for _ in range(9):
        for name, text in TEXTS.items():
            ends[name], time = run(sys.argv[1], text)
            times[name].append(time)
    unit = statistics.median(times["half a mebibyte of functions"])
    for name in TEXTS:
        middle = statistics.median(times[name])
        print(f"{name} | {ends[name]} | {middle:.4f} | {middle / unit:.2f}")


main()
