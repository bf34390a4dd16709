"""Compares rows of crates/rows_sym/data with the reference: it prints each line that differs, and for each file how many
lines agree.

    python3 runs.py [FILE..]
"""
import copy
import pathlib
import sys

import sketch
from cases import rows, spelt, value

DATA = pathlib.Path(__file__).resolve().parents[2] / "crates/rows_sym/data"


def ended(prog, bounds, name, choice, words):
    """How a function runs in the program that a choice makes, on one line."""
    sizes = sketch.sites(prog, bounds)
    if len(sizes) != len(choice) or any(not 0 <= v < size for v, size in zip(choice, sizes)):
        return f"no choice, of sites {sizes}"
    filled = sketch.fill(prog, choice)
    f = [f for f in filled.funs if f.name == name][0]
    args = [value(w, p[1], bounds["W"]) for w, p in zip(words, f.params)]
    if len(args) != len(words) or len(args) != len(f.params):
        return "no arguments"
    end = sketch.run(filled, name, copy.deepcopy(args), bounds)
    if end[0] != "done":
        return end[0]
    parts = [f"result {'-' if f.res is None else spelt(end[1])}"]
    parts += [f"ref {p[0]} {spelt(v)}" for v, p in zip(end[2], [p for p in f.params if p[2]])]
    return " ".join(parts + [f"cost {end[3]}"])


def lines_of(line, text, answers):
    """Each line of a row with what it wants and what comes."""
    name, *width = line.split()
    prog, bounds = sketch.load(text, **({"W": int(width[0])} if width else {}))
    prog = sketch.expand(prog, bounds)
    for one in answers[0][1].split("\n")[:-1]:
        case, _, wanted = one.partition(" => ")
        words = case.split()
        at = words.index(":")
        if words[at + 1 :] in (["found"], ["nothing"]) or words[at + 1 : at + 2] == ["clauses"]:
            continue  # of a search, or of a formula, which the reference does not make
        yield one, wanted, ended(prog, bounds, name, [int(w) for w in words[:at]], words[at + 1 :])


def main(names):
    for name in names or sorted(p.name for p in DATA.glob("*.txt")):
        same = count = 0
        for title, line, _, text, answers in rows(DATA / name):
            count += 1
            for one, wanted, came in lines_of(line, text, answers):
                if came == wanted:
                    same += 1
                else:
                    print(f"{name}: {title}: {one}: {came}")
        print(f"{name}: {same} lines of {count} rows agree")


if __name__ == "__main__":
    main(sys.argv[1:])
