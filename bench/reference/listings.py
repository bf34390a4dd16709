"""Lists all completions of sketches, and judges why there is none, by trying every filling on every input.

    python3 listings.py rows FILE..             prints files of rows with the answers of their lines `all` and `why`
    python3 listings.py judge PROGRAM FILE..    runs the program on each row of such a line and judges what it writes

Two choices are told apart where they differ at a site that stands; of those that are not, the one with 0 at each site that does not
stand is listed. Of a line `why` more than one answer is right, so its row has the front of an answer, and `judge` looks whether no
filling passes all inputs of the answer, and for each of them some filling passes the others.
"""
import argparse
import itertools
import multiprocessing
import pathlib
import re
import subprocess
import sys

import cases
import search
import sketch

MOST = 400000


def standing(found, values):
    """Whether each site of an expanded program stands under a choice."""
    marks, used = [False] * len(values), set()

    def walk(x):
        if isinstance(x, (list, tuple)):
            for y in x:
                walk(y)
        elif isinstance(x, sketch.N):
            if x.k == "hole":
                count = x.ty[2] if x.ty[0] == "arr" else 1
                marks[x.site : x.site + count] = [True] * count
            elif x.k == "pattern":
                marks[x.site] = True
                walk(x.es[values[x.site]])
            elif x.k in ("repeat", "minrepeat"):
                is_open = x.k == "minrepeat" or x.count.k == "hole"
                if is_open:
                    marks[x.site] = True
                walk(x.copies[: values[x.site]] if is_open else x.copies)
            else:
                if x.k == "reorder":
                    for i in range(len(x.body) - 1):
                        marks[x.site + i] = True
                if x.k == "call":
                    used.add(x.f)
                for key in sketch.ORDER.get(x.k, ()):
                    walk(getattr(x, key))

    for i, f in enumerate(found.funs):
        if i < found.ordinary or f.name in used:
            walk(f.body)
    return marks


class Asked:
    """A sketch, its choices and its inputs; `None` for `of` where there are too many to try."""

    @staticmethod
    def of(text, **options):
        it = Asked()
        prog, it.bounds = sketch.load(text, **options)
        it.found = sketch.expand(prog, it.bounds)
        it.sizes = sketch.sites(it.found, it.bounds)
        it.questions = search.asked(it.found, it.bounds)
        choices = inputs = 1
        for size in it.sizes:
            choices *= size
        for _, types in it.questions:
            each = 1
            for t in types:
                each *= search.count(t, it.bounds)
            inputs += each
        return it if choices <= MOST and inputs <= MOST else None

    def choices(self):
        """Each choice that is 0 where a site does not stand, in the order of their values."""
        for values in itertools.product(*[range(size) for size in self.sizes]):
            if all(stands or value == 0 for stands, value in zip(standing(self.found, values), values)):
                yield values

    def breaks(self, filled, i, args):
        return search.cost_on(filled, self.bounds, self.questions[i][0], args)[0]

    def meets(self, values, hard):
        filled = sketch.fill(self.found, list(values))
        return search.value_of(filled, self.bounds, self.questions, hard, None) is not None

    def completions(self):
        hard = []
        return [values for values in self.choices() if self.meets(values, hard)]

    def explains(self, inputs):
        """Whether no filling passes these inputs, and without each of them some filling passes the others."""
        lacking = set()
        for values in self.choices():
            filled = sketch.fill(self.found, list(values))
            broken = [n for n, (i, args) in enumerate(inputs) if self.breaks(filled, i, args)]
            if not broken:
                return False
            if len(broken) == 1:
                lacking.add(broken[0])
        return len(lacking) == len(inputs)


def numbers(values):
    return "".join(f" {v}" for v in values)


def listed(it, most):
    """What `all` may write: one text where all are listed, and else its last line alone is sure."""
    found = it.completions()
    if len(found) <= most:
        return ["".join(f"//@ holes{numbers(c)}\n" for c in found) + "//@ all\n"]
    if len(found) > 12 or most > 1:
        return ["//@ holes.."]
    return [f"//@ holes{numbers(c)}\n//@ more\n" for c in found]


def answers(words, text):
    """The status of the line and what it may write; nothing where there are too many fillings or inputs to try."""
    options, others = cases.bounds(words[1:])
    it = Asked.of(text, **options)
    if it is None:
        return None
    if words[0] == "all":
        return 0, listed(it, int(others[0]))
    found = it.completions()
    if not found:
        return 0, ["//@ input .."]
    whole = len(found) <= 12 and not any(0 in standing(it.found, c) for c in found)
    return 7, [f"//@ met\n//@ holes{numbers(c)}\n" for c in found] if whole else ["//@ met\n//@ holes.."]


def parts_of(block):
    parts = re.split(r"^---(.*)\n", block, flags=re.M)
    title, words = parts[0].split("\n")[0], parts[0].split("\n")[1].split()
    text = parts[2][:-1] if parts[1].endswith("no line feed") else parts[2]
    return parts, title, words, text


def tried(piece):
    if not piece.startswith("=== "):
        return piece
    row = piece.rstrip("\n") + "\n"
    parts, title, words, text = parts_of(row)
    if words[:1] not in (["all"], ["why"]):
        return piece
    try:
        found = answers(words, text)
    except sketch.Refuse as fault:
        print(f"{title}: refused, {fault}", file=sys.stderr)
        return piece
    if found is None:
        print(f"{title}: too many to try", file=sys.stderr)
        return piece
    status, outs = found
    kept = parts[0] + "---" + parts[1] + "\n" + parts[2]
    for i, out in enumerate(outs):
        end = out if out.endswith("\n") else out + "\n"
        kept += f"--- {'or ' if i else ''}{status}\n{end}"
    return kept + piece[len(row) :]


def inputs_of(it, lines):
    """The inputs that lines `//@ input O A ..` name, an argument a word."""
    inputs = []
    for line in lines:
        words = line.split()[2:]
        types = it.questions[int(words[0])][1]
        inputs.append((int(words[0]), [cases.value(w, t, it.bounds["W"]) for w, t in zip(words[1:], types)]))
    return inputs


def is_right(words, text, status, out):
    """Whether a status and what is written are a right answer of a line `all` or `why`."""
    options, others = cases.bounds(words[1:])
    it = Asked.of(text, **options)
    lines = out.splitlines()
    choices = [tuple(int(w) for w in line.split()[2:]) for line in lines if line.startswith("//@ holes")]
    found = it.completions()
    if words[0] == "all":
        most = int(others[0])
        if status != 0 or lines[-1:] != (["//@ all"] if len(found) <= most else ["//@ more"]):
            return False
        return len(lines) == len(choices) + 1 and choices == sorted(set(choices) & set(found)) and len(choices) == min(most, len(found))
    if found:
        canonical = tuple(v if s else 0 for v, s in zip(choices[0], standing(it.found, choices[0]))) if choices else None
        return status == 7 and lines[0] == "//@ met" and len(lines) == 2 and canonical in found
    inputs = inputs_of(it, lines[:-1])
    return status == 0 and lines[-1] == f"//@ why {len(inputs)}" and it.explains(inputs)


def judged(given):
    program, piece = given
    if not piece.startswith("=== "):
        return None
    _, title, words, text = parts_of(piece.rstrip("\n") + "\n")
    if words[:1] not in (["all"], ["why"]):
        return None
    ran = subprocess.run([program, *words], input=text.encode(), capture_output=True, check=False)
    right = is_right(words, text, ran.returncode, ran.stdout.decode())
    return words[0], right, f"{title}: {ran.returncode} {ran.stdout.decode()!r}"


def main():
    parser = argparse.ArgumentParser()
    parser.add_argument("verb", choices=("rows", "judge"))
    parser.add_argument("files", nargs="+")
    parser.add_argument("--processes", type=int, default=2)
    given = parser.parse_args()
    with multiprocessing.Pool(given.processes) as pool:
        if given.verb == "rows":
            for name in given.files:
                sys.stdout.write("".join(pool.imap(tried, search.pieces(pathlib.Path(name).read_text()))))
            return 0
        program, *names = given.files
        rows = [(program, piece) for name in names for piece in search.pieces(pathlib.Path(name).read_text())]
        told = [it for it in pool.imap(judged, rows) if it]
    for word in ("all", "why"):
        of_word = [it for it in told if it[0] == word]
        print(f"{word}: {sum(it[1] for it in of_word)} of {len(of_word)} right")
    for _, right, what in told:
        if not right:
            print(what)
    return 0 if all(it[1] for it in told) else 1


if __name__ == "__main__":
    sys.exit(main())
