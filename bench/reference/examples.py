"""Says how each command of examples/README.md ends, computed by the reference apart from the program.

    python3 examples.py
"""
import pathlib

from sketch import load, run, copy

FOLDER = pathlib.Path(__file__).resolve().parents[2] / "examples"

# file, function, values, bounds by the reference's names, options as they stand on the command line
COMMANDS = [
    ("greatest_divisor", "greatest_divisor", [84, 36], {}, ""),
    ("reversal", "reversal", [[1, 2, 3, 4]], {}, ""),
    ("ones", "ones", [[1, 0, 1, 1, 0, 0, 0, 1]], {}, ""),
    ("sorted", "sorted", [[3, 1, 4, 2]], {}, ""),
    ("transposed", "transposed", [[[1, 2, 3], [4, 5, 6], [7, 8, 9]]], {}, ""),
    ("power", "power", [3, 9], {}, ""),
    ("power", "power", [3, 11], {}, ""),
    ("power", "power", [3, 11], {"W": 32}, "--int-bits 32"),
    ("factorial", "factorial", [7], {"inline": 8}, "--bnd-inline-amnt 8"),
    ("factorial", "factorial", [7], {}, ""),
    ("gray", "gray", [[1, 1, 0, 1, 0, 0, 0, 0]], {}, ""),
    ("gray", "number_of", [[0, 1, 1, 1, 0, 0, 0, 0]], {}, ""),
    ("root", "root", [1000], {}, ""),
    ("root", "root", [-1], {}, ""),
    ("coins", "coins", [91, [0, 0, 0, 0]], {}, ""),
]


def scalars(v):
    if isinstance(v, list):
        return [w for x in v for w in scalars(x)]
    return [int(v)]


def spelt(v):
    return ",".join(map(str, scalars(v)))


def command(name, fun, args, options):
    words = " ".join(map(spelt, args))
    minus = "-- " if any(n < 0 for a in args for n in scalars(a)) else ""
    return f"exec {fun} {options + ' ' if options else ''}{minus}{words} < {name}.sk"


def lines(name, fun, args, bounds):
    prog, b = load((FOLDER / f"{name}.sk").read_text(), **bounds)
    end = run(prog, fun, copy.deepcopy(args), b)
    if end[0] != "done":
        return [f"{end[0]} {end[1][0]} {end[1][1]}"]
    f = [f for f in prog.funs if f.name == fun][0]
    result = "-" if f.res is None else spelt(end[1])
    refs = [f"ref {p[0]} {spelt(v)}" for v, p in zip(end[2], [p for p in f.params if p[2]])]
    return [f"result {result}"] + refs + [f"cost {end[3]}"]


if __name__ == "__main__":
    for name, fun, args, bounds, options in COMMANDS:
        print(command(name, fun, args, options), "->", "; ".join(lines(name, fun, args, bounds)))
