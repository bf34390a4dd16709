#!/usr/bin/env python3
"""Damages certificates at every line, and has the program judge them as the reference does.

    certificate_turns.py PROGRAM [--keep FOLDER]

PROGRAM is the built `sketch`. It certifies three sketches: one with a value above 0, one that nothing completes, and one with an input of two numbers. Of each
certificate each line is left out, doubled, and put before the line before it, and each number is raised by one. bench/reference/checks.py says which answers
are right. The script prints how many were judged how, and each that was judged otherwise, whose input goes to FOLDER (turns-found); then its status is 1."""
import argparse
import collections
import pathlib
import sys

TOP = pathlib.Path(__file__).resolve().parents[1]
sys.path[:0] = [str(TOP / "bench/reference"), str(TOP / "bench")]
import checks  # noqa: E402
import mutants  # noqa: E402

SKETCHES = [
    ("a value above 0", [], "harness void main(int x) { int t = 0; minrepeat { t = t + 2; } assert t >= 6; }\n"),
    ("none", [], "harness void main(int x) { assert x + ?? == x * 2; }\n"),
    ("two numbers", ["--bnd-inbits", "2"], "harness void main(int[2] a) { int t = ??; minimize(t); assert t >= a[0] - a[1]; }\n"),
]


def raised(line):
    """The line with each of its numbers greater by one, one at a time."""
    words = line.split(" ")
    for at, word in enumerate(words):
        parts = word.split(",")
        for k, part in enumerate(parts):
            if part.removeprefix("-").isdigit():
                more = ",".join([*parts[:k], str(int(part) + 1), *parts[k + 1 :]])
                yield " ".join([*words[:at], more, *words[at + 1 :]])


def turns(lines):
    """What is done to a certificate, and the lines that are left."""
    for at, line in enumerate(lines):
        yield "left out", [*lines[:at], *lines[at + 1 :]]
        yield "doubled", [*lines[:at], line, *lines[at:]]
        if at:
            yield "moved", [*lines[: at - 1], line, lines[at - 1], *lines[at + 1 :]]
        for more in raised(line) if line.startswith("//@") else ():
            yield "raised", [*lines[:at], more, *lines[at + 1 :]]


def main():
    parser = argparse.ArgumentParser()
    parser.add_argument("program")
    parser.add_argument("--keep", default="turns-found")
    given = parser.parse_args()
    wrong = 0
    for name, words, text in SKETCHES:
        counts = collections.Counter()
        _, out = mutants.run(given.program, ["synth", "--cert", *words], text.encode(), 60)
        one = mutants.Certified(name, words, text.encode(), out)
        asked, original = checks.Sketch(one.sketch, words), checks.read(out)
        for how, lines in turns(out.decode().split("\n")[:-1]):
            changed = "".join(line + "\n" for line in lines).encode()
            right = checks.answers(one.given(changed), words, original, asked)
            status, said = mutants.said_of(given.program, one, changed, 60)
            counts[f"{how}: {' '.join(said.split()[:2])}"] += 1
            if said not in right:
                wrong += 1
                mutants.kept(pathlib.Path(given.keep) / str(wrong), one, one.given(changed), right, f"{status} {said}")
        print(f"{name}: {out.count(b'//@')} lines of a certificate, {sum(counts.values())} turns: " + ", ".join(f"{how}: {n}" for how, n in sorted(counts.items())), flush=True)
    print(f"{wrong} judged otherwise")
    return 1 if wrong else 0


if __name__ == "__main__":
    sys.exit(main())
