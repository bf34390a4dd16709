"""Completes sketches by trying every filling on every input, and prints files of rows with the answers that it finds.

    python3 search.py FILE.. [--most N] [--processes N]

Of each row of a line `synth` without budgets the answers are left out, every filling is tried on every input, and each
least completion is written as an answer, so what is printed differs from a right file in nothing. Rows with more than
N choices or N inputs (400,000 if left out), and rows whose completions are more than 12, are printed as they stand, and
named on standard error. So are texts that pass a limit, and completions that do not stay as they are.
"""
import argparse
import itertools
import multiprocessing
import pathlib
import re
import sys

import cases
import sketch

LIMITS = {"steps": 262144, "news": 256}
LISTED = 12


def count(ty, b):
    if ty[0] == "arr":
        return count(ty[1], b) ** ty[2]
    return 2 ** b["inbits"] if ty[0] == "int" else 2


def asked(found, b):
    """Each obligation with the types of its parameters."""
    functions = {f.name: f for f in found.funs}
    return [(o, [p[1] for p in functions[o[1]].params]) for o in sketch.obligations(found)]


def all_inputs(questions, b):
    """Each number of an obligation with each of its inputs."""
    for i, (_, types) in enumerate(questions):
        for args in itertools.product(*[sketch.inputs(t, b) for t in types]):
            yield i, list(args)


def cost_on(filled, b, obligation, args):
    """Whether an input breaks a filling, and what its run costs."""
    if obligation[0] != "harness":
        return sketch.breaks(filled, b, obligation, args), 0
    end = sketch.run(filled, obligation[1], sketch.copied(args), b)
    return end[0] == "failed", end[3] if end[0] == "done" else 0


def value_of(filled, b, questions, hard, least):
    """The value of a filling that no input breaks and that costs at most `least`; inputs that broke others come first."""
    value = 0
    for i, args in itertools.chain(list(hard), all_inputs(questions, b)):
        broken, cost = cost_on(filled, b, questions[i][0], args)
        if broken or (least is not None and cost > least):
            if (i, args) in hard:
                hard.remove((i, args))
            hard.insert(0, (i, args))
            del hard[12:]
            return None
        value = max(value, cost)
    return value


def least_fillings(text, most, **options):
    """The least value, each choice that has it and its program; nothing where there are too many to try."""
    prog, b = sketch.load(text, **options)
    found = sketch.expand(prog, b)
    for what, limit in LIMITS.items():
        sizes = sketch.steps(found, b, what)
        if (sum(sizes) if what == "steps" else max(sizes, default=0)) > limit:
            print(f"passes the limit of {what}", file=sys.stderr)
    sizes = sketch.sites(found, b)
    questions = asked(found, b)
    choices = inputs = 1
    for size in sizes:
        choices *= size
    for _, types in questions:
        each = 1
        for t in types:
            each *= count(t, b)
        inputs += each
    if choices > most or inputs > most:
        return None
    best, hits, hard = None, [], []
    for values in itertools.product(*[range(size) for size in sizes]):
        filled = sketch.fill(found, list(values))
        value = value_of(filled, b, questions, hard, best)
        if value is None:
            continue
        if best is None or value < best:
            best, hits = value, []
        hits.append((values, filled))
    return best, hits


def stays(text, options):
    """Whether a completed text has no sites and is laid out as it stands."""
    prog, b = sketch.load(text, **options)
    found = sketch.expand(prog, b)
    return not sketch.sites(found, b) and text.startswith(sketch.layout(sketch.fill(found, [])))


def answered(block, most):
    """A row with its answers."""
    parts = re.split(r"^---(.*)\n", block, flags=re.M)
    head, text = parts[0], parts[2]
    title, words = head.split("\n")[0], head.split("\n")[1].split()
    if words[:1] != ["synth"] or any(w.split("=")[0] in ("--rounds", "--conflicts", "--cert") for w in words):
        return block
    if parts[1].endswith("no line feed"):
        text = text[:-1]
    options, _ = cases.bounds(words[1:])
    try:
        found = least_fillings(text, most, **options)
    except sketch.Refuse as fault:
        print(f"{title}: refused, {fault}", file=sys.stderr)
        return block
    if found is None:
        print(f"{title}: too many to try", file=sys.stderr)
        return block
    best, hits = found
    if len(hits) > LISTED:
        print(f"{title}: {len(hits)} least completions, such as {[h[0] for h in hits[:3]]}", file=sys.stderr)
        return block
    kept = head + "---" + parts[1] + "\n" + parts[2]
    if not hits:
        return kept + "--- 1\n//@ none\n"
    for i, (values, filled) in enumerate(hits):
        out = sketch.layout(filled)
        if "once" not in head.split("\n") and not stays(out, options):
            print(f"{title}: its completion does not stay", file=sys.stderr)
        holes = "".join(f" {v}" for v in values)
        kept += f"--- {'or ' if i else ''}0\n{out}//@ completion\n//@ value {best}\n//@ holes{holes}\n"
    return kept


def pieces(text):
    """The rows of a file, and what stands between them."""
    found, inside = [""], False
    for line in text.splitlines(keepends=True):
        if line.startswith(("=== ", "#")):
            found.append("")
            inside = line.startswith("=== ")
        found[-1] += line
    return found


def tried(given):
    piece, most = given
    if not piece.startswith("=== "):
        return piece
    row = piece.rstrip("\n") + "\n"
    return answered(row, most) + piece[len(row) :]


def main():
    parser = argparse.ArgumentParser()
    parser.add_argument("files", nargs="+")
    parser.add_argument("--most", type=int, default=400000)
    parser.add_argument("--processes", type=int, default=2)
    given = parser.parse_args()
    with multiprocessing.Pool(given.processes) as pool:
        for name in given.files:
            found = [(piece, given.most) for piece in pieces(pathlib.Path(name).read_text())]
            sys.stdout.write("".join(pool.imap(tried, found)))


if __name__ == "__main__":
    main()
