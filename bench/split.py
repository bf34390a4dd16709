#!/usr/bin/env python3
"""Tries share/split: sketches are split, each part is completed, and what is joined has to be the answer for the whole.

    split.py [--sketch PATH]

Parts and wholes are completed by the reference in bench/reference, which tries all fillings, or by the program at PATH. Of
several least completions any will do: the joined one has to be one of those of the whole. Answers of parts that spent a
budget, are refused or are not there are made up. The status is 1 where an answer is wrong."""
import argparse
import pathlib
import re
import subprocess
import sys
import tempfile

TOP = pathlib.Path(__file__).resolve().parents[1]
SPLIT = TOP / "share/split"
sys.path.insert(0, str(TOP / "bench/reference"))
import search  # noqa: E402
import sketch  # noqa: E402

WHOLE = {
    "a number": ("k:0 k:1", "harness void f(bit[2] x) { int k = ??(3); assert k == 5; }"),
    "none": ("k:0 k:2", "harness void f(bit[2] x) { int k = ??(3); assert k + x[0] == 5; }"),
    "a row of bits, as few as can be": ("m:0 m:3", "harness void f(bit[4] x) { bit[4] m = ??; int n = 0; for (int i = 0; i < 4; i++) n = n + m[i]; minimize(n); assert (x & m)[2] == x[2] && n > 1; }"),
    "a bit and a branch": ("b:0 k:0", "harness void f(bit x) { bit b = ??; if (x) { int k = ??(2); assert k > 1; minimize(k); } assert b || x; }"),
    "a reference": ("c:0", "bit[3] g(bit[3] x) { return x + x; } bit[3] f(bit[3] x) implements g { int c = ??(2); return x << c; }"),
    "a hole that is not reached": ("k:0", "harness void f(bit x) { if (x && !x) { int k = ??(1); assert k == 2; } }"),
    "a function that is called twice": ("k:1", "int g(int x) { int k = ??(2); return x + k; } harness void f(bit x) { assert g(1) == 3 && g(x) == 2 + x; }"),
}
REFUSED = {
    "k in a generator": ("k:0", "generator int g() { int k = ??; return k; } harness void f() { assert g() == 1; }"),
    "k in a repeat": ("k:0", "harness void f() { repeat (2) { int k = ??; assert k > 0; } }"),
    "k in a repeated else": ("k:0", "harness void f(bit b) { repeat (2) if (b) { } else { int k = ??; } }"),
    "two of a name": ("k:0", "void g() { int k = ??; } harness void f() { int k = ??; }"),
    "no such hole": ("k:0", "harness void f() { int k = 3; }"),
    "a sum": ("k:0", "harness void f() { int k = ?? + 1; }"),
    "a body": ("k:0", "harness void f(bit b) { if (b) int k = ??; }"),
    "no bit": ("k", "harness void f() { int k = ??; }"),
    "a bit twice": ("k:0 k:0", "harness void f() { int k = ??; }"),
}
DONE = "harness void f() {{\n    int k = {0};\n    assert k % 2 == {1};\n}}\n//@ completion\n"
SPENT = "//@ spent conflicts 9\n"
MADE = [  # the answers of two parts, as status and output, and the status and output of the whole
    ((0, DONE.format(2, 0) + "//@ value 3\n//@ holes 2\n"), (0, DONE.format(1, 1) + "//@ value 2\n//@ holes 1\n"), 0, "value 2"),
    ((2, SPENT), (1, "//@ none\n"), 2, SPENT),
    ((1, "//@ none\n"), (1, "//@ none\n"), 1, "//@ none\n"),
    ((3, DONE.format(2, 0) + "//@ holes 2\n" + SPENT), (1, "//@ none\n"), 3, "//@ holes 2\n" + SPENT),
    ((2, SPENT), (0, DONE.format(1, 1) + "//@ value 4\n//@ holes 1\n"), 3, "//@ holes 1\n" + SPENT),
    ((2, SPENT), (0, DONE.format(1, 1) + "//@ value 0\n//@ holes 1\n"), 0, "//@ value 0\n//@ holes 1\n"),
    (None, (0, DONE.format(1, 1) + "//@ value 0\n//@ holes 1\n"), 0, "//@ holes 1\n"),
    (None, (0, DONE.format(1, 1) + "//@ value 1\n//@ holes 1\n"), 64, ""),
    ((12, ""), (0, DONE.format(1, 1) + "//@ value 0\n//@ holes 1\n"), 12, ""),
]


def split(words, text=None):
    done = subprocess.run([sys.executable, str(SPLIT), *words], input=text, capture_output=True, text=True)
    return done.returncode, done.stdout


def answer(program, text):
    if program:
        done = subprocess.run([program, "synth"], input=text, capture_output=True, text=True)
        return done.returncode, done.stdout
    out = sketch.synth(text)[0]
    return int(out == "//@ none\n"), out


def least(text):
    """The outputs that are right for a sketch."""
    found = search.least_fillings(text, 400000)
    outs = {sketch.layout(filled) + f"//@ completion\n//@ value {found[0]}\n//@ holes{''.join(f' {v}' for v in values)}\n" for values, filled in found[1]}
    return outs or {"//@ none\n"}


def write(folder, number, found):
    for end, value in zip(("status", "out"), found):
        (folder / f"part-{number}.{end}").write_text(str(value))


def tried_whole(title, words, text, program, folder):
    status, _ = split(["make", str(folder), *words.split()], text)
    parts = sorted(folder.glob("part-*.sk"))
    if status or len(parts) != 1 << len(words.split()):
        return [f"{title}: make ends with {status}, {len(parts)} parts"]
    for part in parts:
        write(folder, int(re.search(r"\d+", part.name)[0]), answer(program, part.read_text()))
    status, out = split(["join", str(folder)])
    right = least(text)
    return [] if out in right and status == int("//@ none\n" in right) else [f"{title}: joined to {status}\n{out}"]


def tried_made(case, folder):
    split(["make", str(folder), "k:0"], "harness void f() { int k = ??; }")
    for number, found in enumerate(case[:2]):
        if found:
            write(folder, number, found)
    status, out = split(["join", str(folder)])
    fine = status == case[2] and case[3] in out and "assert" not in out
    return [] if fine else [f"{case}: joined to {status}\n{out}"]


def main():
    parser = argparse.ArgumentParser()
    parser.add_argument("--sketch")
    program, told = parser.parse_args().sketch, []
    with tempfile.TemporaryDirectory() as top:
        for n, (title, (words, text)) in enumerate(WHOLE.items()):
            told += tried_whole(title, words, text, program, pathlib.Path(top, f"whole-{n}"))
        for n, case in enumerate(MADE):
            told += tried_made(case, pathlib.Path(top, f"made-{n}"))
        for n, (title, (words, text)) in enumerate(REFUSED.items()):
            status, _ = split(["make", str(pathlib.Path(top, f"refused-{n}")), *words.split()], text)
            told += [] if status == 64 else [f"{title}: make ends with {status}"]
    for line in told:
        print(line)
    print(f"split: {len(WHOLE)} sketches, {len(MADE)} joins of made answers, {len(REFUSED)} refusals, {len(told)} wrong")
    return 1 if told else 0


if __name__ == "__main__":
    sys.exit(main())
