#!/usr/bin/env python3
"""Changes certificates at random, and has the program judge them: none may be accepted that the reference refuses.

    mutants.py PROGRAM COUNT [SEED] [--limit SECONDS] [--most BYTES] [--keep FOLDER] [--only WORD]

PROGRAM is the built `sketch`, or one that takes its lines `synth --cert` and `check`. It certifies the sketches of
crates/rows_commands, bench/sketches and examples/, and each certificate is judged once as it stands: it has to be accepted. Of those
with at most BYTES (300,000) COUNT mutants are made by SEED (1): a literal, a clause, a clause of a log, a value, an input, a part or
a byte is changed, taken out, doubled, or put elsewhere. bench/reference/checks.py says which answers are right of each. A run of more
than SECONDS (20) is cut off, and counted apart.

The script stops at the first mutant that is accepted and should not be, and at one that is judged otherwise than the reference
says: its input and what was said go to FOLDER (mutants-found), and the status is 1. Else it prints how many were judged how.
"""
import argparse
import collections
import dataclasses
import pathlib
import random
import subprocess
import sys

TOP = pathlib.Path(__file__).resolve().parents[1]
sys.path[:0] = [str(TOP / "bench/reference"), str(TOP / "bench")]
import cases  # noqa: E402
import checks  # noqa: E402
import sketch  # noqa: E402

BOUNDS = ("--bnd-cbits", "--bnd-inbits", "--bnd-unroll-amnt", "--bnd-inline-amnt", "--int-bits")
NUMBERS = ["0", "1", "2", "7", "31", "32", "-1", "4294967296", "18446744073709551615", "18446744073709551616", "01", ""]


@dataclasses.dataclass
class Certified:
    """A sketch with the bounds of its line, and its certificate."""

    name: str
    words: list
    sketch: bytes
    text: bytes

    def given(self, text):
        """What `check` reads."""
        feed = b"" if self.sketch == b"" or self.sketch.endswith(b"\n") else b"\n"
        return self.sketch + feed + checks.MARK + b"\n" + text


def run(program, words, text, limit):
    """The status and the first line that is said; none where the run was cut off."""
    try:
        ran = subprocess.run([program, *words], input=text, capture_output=True, timeout=limit, env={"SKETCH_EXPLAIN": "0"})
    except subprocess.TimeoutExpired:
        return None, b""
    return ran.returncode, ran.stdout if ran.returncode < 10 else ran.stderr


def bounds_of(words):
    """The words that set bounds."""
    pairs = [w for word in words for w in word.split("=", 1)]
    return [w for name, value in zip(pairs, pairs[1:]) if name in BOUNDS for w in (name, value)]


def sketches():
    """Sketches with their bounds."""
    for path in sorted((TOP / "bench/sketches").glob("*.sk")):
        text = path.read_text()
        yield path.name, text.split("\n")[0].removeprefix("// ").split(), text
    for path in sorted((TOP / "examples").glob("*.sk")):
        yield path.name, [], path.read_text()
    for path in sorted(cases.DATA.glob("*.txt")):
        for title, line, settings, text, ends in cases.rows(path):
            if line.startswith("synth") and settings in ([], ["once"]) and ends[0][0] in ("0", "1"):
                yield f"{path.stem}: {title}", line.split(), text


def certified(program, limit):
    """Certificates of sketches, one of each text and bounds, and how many had none within the limit."""
    seen = set()
    for name, words, text in sketches():
        words, source = bounds_of(words), text.encode("latin1")
        # (the line feed in front of the mark counts for the sketch)
        whole = source if source.endswith(b"\n") else source + b"\n"
        if (text, *words) in seen or b"\n//%%\n" in source or len(whole) > checks.MOST_SKETCH:
            continue
        seen.add((text, *words))
        status, out = run(program, ["synth", "--cert", *words], source, limit)
        if status in (0, 1):
            yield Certified(name, words, source, out)
        elif status is None:
            print(f"cut off: {name}", flush=True)


# Changes. Each takes the lines of a certificate, and changes them in place.


def of_kind(lines, *kinds):
    """The numbers of the lines of some kinds."""
    return [at for at, line in enumerate(lines) if line.startswith("//@") and line.split(" ")[1:2] and line.split(" ")[1] in kinds]


def changed_word(source, line, words):
    """A line with one of its words behind the mark changed, taken out, or with one more."""
    parts = line.split(" ")
    at = source.randrange(2, len(parts) + 1)
    way = source.randrange(4)
    if way == 0 or at == len(parts):
        parts.insert(at, source.choice(words))
    elif way == 1:
        del parts[at]
    else:
        parts[at] = source.choice(words)
    return " ".join(parts)


def literal(source, lines):
    """A literal is negated, or is another."""
    at = source.choice(of_kind(lines, "c", "l"))
    near = lines[source.choice(of_kind(lines, "c", "l"))].split(" ")[2:] or ["1"]
    parts = lines[at].split(" ")
    if len(parts) > 2 and source.random() < 0.5:
        k = source.randrange(2, len(parts))
        parts[k] = parts[k][1:] if parts[k].startswith("-") else "-" + parts[k]
        lines[at] = " ".join(parts)
    else:
        lines[at] = changed_word(source, lines[at], [*near, source.choice(NUMBERS)])


def recounted(lines, at, kind, more):
    """The number of clauses, or of clauses of the log, of the part in which a line stands is changed."""
    head = max(k for k in of_kind(lines, "upper", "lower") if k <= at)
    parts = lines[head].split(" ")
    place = -1 if kind == "l" else -2
    parts[place] = str(int(parts[place]) + more)
    lines[head] = " ".join(parts)


def clause(source, lines, kind="c"):
    """A clause is taken out, doubled, put elsewhere, or is that of another place, for the most part with its count."""
    at = source.choice(of_kind(lines, kind))
    other = source.choice(of_kind(lines, kind))
    way, counts = source.randrange(4), source.random() < 0.9
    if way == 0:
        if counts:
            recounted(lines, at, kind, -1)
        del lines[at]
    elif way == 1:
        if counts:
            recounted(lines, at, kind, 1)
        lines.insert(at, lines[other])
    elif way == 2:
        lines[at], lines[other] = lines[other], lines[at]
    else:
        lines[at] = lines[other]


def of_log(source, lines):
    clause(source, lines, "l")


def cut_log(source, lines):
    """A log that ends early: with an empty clause, or without."""
    at = source.choice(of_kind(lines, "l"))
    end = at
    while end < len(lines) and lines[end].split(" ")[1] == "l":
        end += 1
    put = ["//@ l"] if source.random() < 0.7 else []
    recounted(lines, at, "l", len(put) - (end - at))
    lines[at:end] = put


def value(source, lines):
    at = source.choice(of_kind(lines, "value", "holes", "certificate", "inputs", "names", "upper", "lower"))
    near = lines[at].split(" ")[2:] or ["0"]
    lines[at] = changed_word(source, lines[at], [*near, *(str(int(w) + source.choice([-1, 1])) for w in near if w.isdigit()), source.choice(NUMBERS)])


def an_input(source, lines):
    """An input is changed, taken out, doubled, or changes places, for the most part with its count."""
    places = of_kind(lines, "input")
    if not places:
        return value(source, lines)
    at, other, way = source.choice(places), source.choice(places), source.randrange(5)
    if way < 2:
        more = 1 if way == 0 else -1
        lines[at : at + (0 if way == 0 else 1)] = [lines[other]] if way == 0 else []
        if source.random() < 0.9:
            head = of_kind(lines, "inputs")[0]
            lines[head] = f"//@ inputs {int(lines[head].split(' ')[2]) + more}"
    elif way == 2:
        lines[at], lines[other] = lines[other], lines[at]
    else:
        scalars = [s for w in lines[at].split(" ")[3:] for s in w.split(",")] + NUMBERS
        pieces = lines[at].split(" ")
        k = source.randrange(2, len(pieces))
        parts = pieces[k].split(",")
        parts[source.randrange(len(parts))] = source.choice(scalars)
        pieces[k] = ",".join(parts)
        lines[at] = " ".join(pieces)


def part(source, lines):
    """A part is taken out, doubled, put in the place of another, or is about nothing."""
    heads = of_kind(lines, "upper", "lower")
    ends = [*heads[1:], of_kind(lines, "end")[-1]]
    k, other, way = source.randrange(len(heads)), source.randrange(len(heads)), source.randrange(4)
    copied = lines[heads[other] + 1 : ends[other]]
    sizes = lines[heads[other]].split(" ")[-3:]
    if way == 0:
        lines[heads[k] : ends[k]] = []
    elif way == 1:
        lines[heads[k] : heads[k]] = lines[heads[other] : ends[other]]
    else:
        names = [line for line in lines[heads[k] : ends[k]] if line.startswith("//@ names")]
        if way == 3:
            sizes, copied = [lines[heads[k]].split(" ")[-3], "2", "1"], [*names, "//@ c 1", "//@ c -1", "//@ l"]
        lines[heads[k] : ends[k]] = [" ".join(lines[heads[k]].split(" ")[:-3] + sizes), *copied]
    if source.random() < 0.5:
        for number, at in enumerate(of_kind(lines, "upper")):
            pieces = lines[at].split(" ")
            if len(pieces) == 6:
                lines[at] = " ".join(["//@", "upper", str(number), *pieces[3:]])


def a_byte(source, lines, last=None):
    """A byte of a line is changed, taken out, or one is put in."""
    at = source.randrange(last or len(lines))
    line, way = lines[at], source.randrange(3)
    k = source.randrange(len(line) + 1)
    put = "" if way == 1 else source.choice("0123456789 ;xy-+*/<={}()\t\r\n\xff")
    lines[at] = line[:k] + put + line[k + (way < 2) :]


def of_text(source, lines):
    """A byte of the program."""
    ends = of_kind(lines, "completion", "none")[0]
    a_byte(source, lines, ends or None)


CHANGES = [literal, literal, literal, clause, clause, of_log, of_log, of_log, cut_log, value, value, an_input, an_input, part, part, of_text, a_byte]


def mutated(source, one, others):
    """A certificate with one change or two, or in its place that of another sketch."""
    if source.random() < 0.02:
        return source.choice(others).text
    lines = one.text.decode("latin1").split("\n")[:-1]
    for _ in range(source.choice([1, 1, 1, 1, 2])):
        try:
            source.choice(CHANGES)(source, lines)
        except (IndexError, ValueError):  # what a first change left has no such place
            continue
    return ("\n".join(lines) + "\n").encode("latin1")


def said_of(program, one, text, limit):
    """What the program says of a certificate."""
    status, out = run(program, ["check", *one.words], one.given(text), limit)
    return status, out.decode("latin1").split("\n")[0]


def kept(folder, one, given, right, said):
    folder.mkdir(parents=True, exist_ok=True)
    (folder / "input").write_bytes(given)
    print(f"{one.name}: check {' '.join(one.words)} < {folder / 'input'} says {said!r}, and right is {right}", flush=True)


def whole_ones(given, counts):
    """Certificates as they stand, of sketches that the reference takes; none where one is not accepted."""
    found = []
    for one in certified(given.program, given.limit):
        status, said = said_of(given.program, one, one.text, given.limit)
        counts["whole: " + (said if status is not None else "cut off")] += 1
        if status not in (None, 0):
            kept(pathlib.Path(given.keep), one, one.given(one.text), ["accepted"], said)
            return None
        if len(one.text) <= given.most and given.only in one.name:
            try:
                asked = checks.Sketch(one.sketch, one.words)
            except (RecursionError, sketch.Refuse):
                continue
            found.append((one, asked, checks.read(one.text)))
    return found


def judged(given, source, found, counts):
    """Judges a mutant, and answers whether it was judged as it should be."""
    one, asked, original = source.choice(found)
    text = mutated(source, one, [other for other, _, _ in found])
    right = checks.answers(one.given(text), one.words, original, asked)
    status, said = said_of(given.program, one, text, given.limit)
    if status is None or status == 17:
        counts["cut off" if status is None else said] += 1
        return True
    counts["as it was, accepted" if text == one.text else " ".join(said.split(" ")[:2])] += 1
    counts["of which both answers are right"] += len(right) > 1
    if said not in right:
        kept(pathlib.Path(given.keep), one, one.given(text), right, said)
    return said in right


def main():
    parser = argparse.ArgumentParser()
    parser.add_argument("program")
    parser.add_argument("count", type=int)
    parser.add_argument("seed", nargs="?", default="1")
    parser.add_argument("--limit", type=float, default=20)
    parser.add_argument("--most", type=int, default=300000)
    parser.add_argument("--keep", default="mutants-found")
    parser.add_argument("--only", default="")
    given = parser.parse_args()
    counts = collections.Counter()
    found = whole_ones(given, counts)
    done = bool(found)
    if found == []:
        print("no sketch was certified")
    for number in range(given.count if done else 0):
        if not judged(given, random.Random(f"{given.seed} {number}"), found, counts):
            done = False
            break
    print("\n".join(f"{said}: {n}" for said, n in sorted(counts.items())))
    return 0 if done else 1


if __name__ == "__main__":
    sys.exit(main())
