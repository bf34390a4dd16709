"""Compares rows of crates/rows_commands/data with the reference: for each file, how many rows agree, which differ, how many
name another of several faults, and how many the reference is not asked for (lines that are none, sizes, sketches with too many choices, sources and sinks that fail, and texts
that nest too deep for it). `limits.txt` is left out: the reference has no limits of depth.

    python3 cases.py [FILE..]
"""
import copy
import pathlib
import re
import sys

import lowering
import pruning
import sketch

DATA = pathlib.Path(__file__).resolve().parents[2] / "crates/rows_commands/data"
OPTIONS = {"--int-bits": "W", "--bnd-cbits": "cbits", "--bnd-inbits": "inbits", "--bnd-unroll-amnt": "unroll", "--bnd-inline-amnt": "inline"}
WORK = 20000


def unmark(text):
    """A text without its marks, and their places."""
    at, plain = [], ""
    for c in text:
        if c in "«»":
            at.append(len(plain))
        else:
            plain += c
    return plain, " ".join(map(str, at))


def spelling(text, before=0, behind=0):
    """What a text with escapes spells, in a piece that stands so many times before and behind."""
    out, i = [], 0
    while i < len(text):
        piece = re.compile(r"\\(\d+)\{").match(text, i)
        if piece:
            i, opened, times = piece.end(), 1, int(piece[1])
            start = i
            while opened:
                opened += {"{": 1, "}": -1}.get(text[i], 0)
                i += 2 if text[i] == "\\" else 1
            inside = text[start : i - 1]
            out += [spelling(inside, n, times - 1 - n) for n in range(times)] if "\\" in inside else [inside * times]
        elif text[i] == "\\" and text[i + 1] == "x":
            out.append(chr(int(text[i + 2 : i + 4], 16)))
            i += 4
        elif text[i] == "\\":
            signs = {"n": "\n", "t": "\t", "r": "\r", "i": str(before), "j": str(before + 1), "k": str(behind), "b": chr(before % 256)}
            out.append(signs.get(text[i + 1], text[i + 1]))
            i += 2
        else:
            out.append(text[i])
            i += 1
    return "".join(out)


def section(head, body):
    if head.endswith("no line feed"):
        return head[: -len("no line feed")].strip(), body[:-1]
    return head.strip(), body


def rows(path):
    """Title, line, settings, text and answers of each row."""
    words, before, behind, spelt, block = "", "", "", str, None
    for line in path.read_text().split("\n"):
        if line.startswith(("=== ", "#")):
            if block:
                yield from done(block)
            block = [line[4:], []] if line.startswith("=== ") else None
        elif block:
            block[1].append(line)
        elif line.startswith("words "):
            words, before, behind, spelt = line[6:], "", "", str
        elif line == "escaped":
            spelt = spelling
        elif line.startswith("before "):
            before = line[7:]
        elif line.startswith("behind "):
            behind = line[7:]
        elif line:
            text, wanted = line.rsplit(" => ", 1)
            plain, place = unmark(spelt(before + text + behind))
            yield text, words, [], plain, [(wanted + (" " + place if place else ""), "")]
    if block:
        yield from done(block)


def done(block):
    title, lines = block
    while lines and not lines[-1]:
        lines.pop()
    parts = re.split(r"^---(.*)\n", "".join(l + "\n" for l in lines), flags=re.M)
    settings = parts[0].split("\n")[:-1]
    spelt = spelling if settings[1:2] == ["escaped"] else str
    found = [(h, spelt(b)) for h, b in (section(h, b) for h, b in zip(parts[1::2], parts[2::2]))]
    plain, place = unmark(found[0][1])
    answers = [(h.removeprefix("or ").replace("«»", place), b.replace("«»", place)) for h, b in found[1:]]
    yield title, settings[0], [s for s in settings[1:] if s != "escaped"], plain, [(re.sub(r"^\d+ (?=[a-z])", "", h), b) for h, b in answers]


def bounds(words):
    """The bounds that words set, and the other words."""
    options, others, ended = {}, [], False
    words = [w for word in words for w in (word.split("=", 1) if word.startswith("--") and "=" in word and not ended else [word])]
    i = 0
    while i < len(words):
        if ended or words[i] not in OPTIONS:
            if words[i] == "--" and not ended:
                ended = True
            else:
                others.append(words[i])
        else:
            options[OPTIONS[words[i]]] = int(words[i + 1])
            i += 1
        i += 1
    return options, others


def value(word, ty, width):
    """The value of a type that a word spells, with what is left of its parts."""

    def read(ty):
        if ty[0] == "arr":
            return [read(ty[1]) for _ in range(ty[2])]
        part = parts.pop(0)
        if ty[0] == "bit":
            if part not in ("0", "1"):
                raise ValueError
            return int(part)
        if not re.fullmatch(r"-?[0-9]{1,10}", part) or not -(2 ** (width - 1)) <= int(part) < 2 ** (width - 1):
            raise ValueError
        return int(part)

    parts = ["" if word == "''" else word][0].replace("␣", " ").split(",")
    found = read(ty)
    if parts:
        raise ValueError
    return found


def scalars(v):
    return [w for x in v for w in scalars(x)] if isinstance(v, list) else [int(v)]


def spelt(v):
    return ",".join(map(str, scalars(v)))


def holds_reference(ty):
    return ty is not None and (holds_reference(ty[1]) if ty[0] == "arr" else ty[0] not in ("int", "bit"))


def executed(prog, b, others):
    given = [f for f in prog.funs if f.name == others[0]]
    if not given:
        return "exec NoFunction", ""
    prog = sketch.expand(prog, b)
    if given[0].kind == "generator" or sketch.sites(prog, b):
        return "exec Unfilled", ""
    prog = sketch.fill(prog, [])
    f = [f for f in prog.funs if f.name == others[0]][0]
    if any(holds_reference(p[1]) for p in f.params) or holds_reference(f.res):
        return "exec References", ""
    if len(others) - 1 != len(f.params):
        return "exec Count", ""
    try:
        args = [value(w, p[1], b["W"]) for w, p in zip(others[1:], f.params)]
    except (ValueError, IndexError):
        return "exec Value", ""
    end = sketch.run(prog, f.name, copy.deepcopy(args), b)
    if end[0] != "done":
        return {"failed": "4", "skipped": "5"}[end[0]], f"{end[0]} {end[1][0]} {end[1][1]}\n"
    lines = [f"result {'-' if f.res is None else spelt(end[1])}"]
    lines += [f"ref {p[0]} {spelt(v)}" for v, p in zip(end[2], [p for p in f.params if p[2]])]
    return "0", "\n".join(lines + [f"cost {end[3]}"]) + "\n"


def work(prog, b):
    """How many pairs of a choice and an input there are."""
    found = sketch.expand(prog, b)
    choices, inputs = 1, 0
    for size in sketch.sites(found, b):
        choices *= size

    def count(ty):
        return count(ty[1]) ** ty[2] if ty[0] == "arr" else 2 ** b["inbits"] if ty[0] == "int" else 2

    for o in sketch.obligations(found):
        each = 1
        for p in [f for f in found.funs if f.name == o[1]][0].params:
            each *= count(p[1])
        inputs += each
    return choices * max(inputs, 1)


def lowered(text, options):
    plain, types = lowering.lower(sketch.tokens(text))
    items = sketch.P(plain).program()
    prog = sketch.Typer(items, sketch.bounds_of(items, options)).run()
    span = lowering.first_break(prog, types)
    return ("0", sketch.layout(prog)) if span is None else (f"tag {span[0]} {span[1]}", "")


def computed(line, text):
    """Message or status, and output; nothing where the reference is not asked."""
    words = line.split()
    if not words or words[0] not in ("synth", "exec", "lower", "prune") or any(w.split("=")[0] in ("--rounds", "--conflicts", "--cert") for w in words):
        return None
    options, others = bounds(words[1:])
    try:
        if words[0] == "lower":
            return lowered(text, options)
        if words[0] == "prune":
            return pruning.answer(text, **options)
        prog, b = sketch.load(text, **options)
        if words[0] == "exec":
            return executed(prog, b, others)
        if work(prog, b) > WORK:
            return None
        out = sketch.synth(text, **options)[0]
        return "1" if out == "//@ none\n" else "0", out
    except RecursionError:
        return None
    except sketch.Refuse as fault:
        return {11: f"text {fault.a[1]}", 12: f"type {fault.a[1]}", 21: " ".join(["adt", *map(str, fault.a[1:])])}.get(fault.a[0], "size"), ""


def agrees(found, answer):
    """Places of faults are not compared, and a row may want any rule."""
    head, body = answer
    if found[0].startswith(("text", "type")):
        return head == "type .." or head.split()[:2] == found[0].split()
    return head == found[0] and body == found[1]


def is_other_fault(found, answer):
    """Whether both refuse a text, for different faults of which none is promised to be named."""
    kinds = [head.split()[0] for head in (found[0], answer[0])]
    return kinds[0] == kinds[1] and kinds[0] in ("text", "type")


def main(names):
    for name in names or sorted(p.name for p in DATA.glob("*.txt") if p.name != "limits.txt"):
        same = faults = other = 0
        for title, line, settings, text, answers in rows(DATA / name):
            skipped = any(h.split()[:1] in (["usage"], ["size"], ["not"], ["read"], ["write"]) for h, _ in answers)
            found = None if skipped or settings not in ([], ["once"]) else computed(line, text)
            if found is None:
                other += 1
            elif any(agrees(found, answer) for answer in answers):
                same += 1
            elif any(is_other_fault(found, answer) for answer in answers):
                faults += 1
            else:
                print(f"{name}: {title}: {line}: {found}, and not {answers}")
        print(f"{name}: {same} rows agree, {faults} name another of several faults, {other} are not asked")


if __name__ == "__main__":
    main(sys.argv[1:])
