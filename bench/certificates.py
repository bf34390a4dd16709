#!/usr/bin/env python3
"""Which texts are certificates, and where other texts depart from the form, by rules written apart from the program.

    certificates.py check FILE      what the rules say of a file
    certificates.py data            the rows of crates/rows_certificates/data/certificates.txt
    certificates.py rows N SEED     N rows of changed certificates, each with what the rules say of it
    certificates.py big SIZE        a certificate of about SIZE bytes, for measuring

The form is given as an expression over lines: `Form` yields, line by line, which lines may come next. A text departs at
the first line that none of them allows.
"""
import random
import re
import sys

NUM = rb"(0|[1-9][0-9]*)"
LIMIT = 1 << 64


def small(word):
    return re.fullmatch(NUM, word) is not None and int(word) < LIMIT


def scalar(word):
    if re.fullmatch(rb"-[1-9][0-9]*|0|[1-9][0-9]*", word) is None:
        return False
    return -(1 << 63) <= int(word) < (1 << 63)


def literal(word, n, signed=True):
    if signed and word.startswith(b"-"):
        word = word[1:]
    return re.fullmatch(rb"[1-9][0-9]*", word) is not None and int(word) <= n


class Departs(Exception):
    pass


class Lines:
    def __init__(self, text):
        self.lines = text.split(b"\n")
        self.tail = self.lines.pop()
        self.at = 0

    def take(self, allowed):
        """The next line, which must be one that is allowed."""
        if self.at == len(self.lines):
            raise Departs
        found = allowed(self.lines[self.at])
        if found is None:
            raise Departs
        self.at += 1
        return found


def words(kind):
    head = b"//@ " + kind

    def allowed(line):
        if line == head:
            return []
        if line.startswith(head + b" "):
            return line[len(head) + 1 :].split(b" ")
        return None

    return allowed


def numbers(kind, count=None, first=None):
    def allowed(line):
        ws = words(kind)(line)
        if ws is None or not all(map(small, ws)):
            return None
        ns = [int(w) for w in ws]
        if count is not None and len(ns) != count:
            return None
        if first is not None and ns[0] != first:
            return None
        return ns

    return allowed


def front(line):
    if line == b"//@ completion":
        return "completion"
    if line == b"//@ none":
        return "none"
    if line.startswith(b"//@") or any(b > 127 for b in line):
        return None
    return "program"


def version(line):
    ns = numbers(b"certificate", 1)(line)
    return ns if ns in ([1], [2]) else None


def an_input(line):
    ws = words(b"input")(line)
    if not ws or not small(ws[0]):
        return None
    if not all(all(map(scalar, w.split(b","))) for w in ws[1:]):
        return None
    return True


def all_words(kind, test):
    def allowed(line):
        ws = words(kind)(line)
        if ws is None or not all(map(test, ws)):
            return None
        return True

    return allowed


def rows(lines, sizes):
    n, c, l = sizes
    lines.take(all_words(b"names", lambda w: literal(w, n, False)))
    for kind, count in ((b"c", c), (b"l", l)):
        for _ in range(count):
            lines.take(all_words(kind, lambda w: literal(w, n)))


def either(*options):
    def allowed(line):
        for name, option in options:
            found = option(line)
            if found is not None:
                return name, found
        return None

    return allowed


def read(lines):
    while True:
        end = lines.take(front)
        if end != "program":
            break
    value = 0
    if end == "completion":
        (value,) = lines.take(numbers(b"value", 1))
        lines.take(numbers(b"holes"))
    (v,) = lines.take(version)
    (k,) = lines.take(numbers(b"inputs", 1))
    for _ in range(k):
        lines.take(an_input)
    lower = end == "none" or value > 0
    last = ("lower", numbers(b"lower", 3)) if lower else ("end", lambda l: [] if l == b"//@ end" else None)
    part = 0
    while True:
        options = []
        if end == "completion" and v == 1 and part == 0:
            options = [("upper", numbers(b"upper", 3))]
        elif end == "completion" and v == 2:
            options = [("upper", numbers(b"upper", 4, part)), last]
        else:
            options = [last]
        name, ns = lines.take(either(*options))
        if name == "upper":
            rows(lines, ns[-3:])
            part += 1
            continue
        if name == "lower":
            rows(lines, ns)
            lines.take(lambda l: True if l == b"//@ end" else None)
        break
    if lines.at < len(lines.lines) or lines.tail:
        raise Departs


def verdict(text):
    """`reads`, or the fault with its line."""
    lines = Lines(text)
    try:
        read(lines)
        return "reads"
    except Departs:
        pass
    left = lines.lines[lines.at] if lines.at < len(lines.lines) else lines.tail
    m = re.fullmatch(rb"//@ certificate " + NUM, left)
    name = "Version" if m and m.group(1) not in (b"1", b"2") else "NoForm"
    return f"{name} {lines.at + 1}"


SEEDS = [
    b"//@ completion\n//@ value 0\n//@ holes\n//@ certificate 2\n//@ inputs 0\n//@ end\n",
    b"int N = 1;\n//@ completion\n//@ value 5\n//@ holes 3 0\n//@ certificate 2\n//@ inputs 1\n//@ input 1 1,0 31\n"
    b"//@ upper 0 1 2 1\n//@ names 1\n//@ c 1\n//@ c -1\n//@ l\n//@ upper 1 2 2 2\n//@ names\n//@ c 1 -2\n//@ c\n//@ l -2\n//@ l\n"
    b"//@ lower 1 2 1\n//@ names 1\n//@ c 1\n//@ c -1\n//@ l\n//@ end\n",
    b"//@ completion\n//@ value 0\n//@ holes 2\n//@ certificate 1\n//@ inputs 0\n//@ upper 1 2 1\n//@ names 1\n//@ c 1\n//@ c -1\n//@ l\n//@ end\n",
    b"//@ none\n//@ certificate 2\n//@ inputs 1\n//@ input 0\n//@ lower 1 2 1\n//@ names 1\n//@ c 1\n//@ c -1\n//@ l\n//@ end\n",
]


def mutated(rng, text):
    for _ in range(rng.choice([1, 1, 1, 2, 3])):
        lines = text.split(b"\n")
        i = rng.randrange(len(lines))
        at = rng.randrange(len(text) + 1)
        kind = rng.randrange(8)
        if kind == 0:
            del lines[i]
        elif kind == 1:
            lines.insert(i, lines[i])
        elif kind == 2:
            return text[:at]
        elif kind == 3:
            return text[:at] + rng.choice([b"0", b"1", b"9", b" ", b"-", b",", b"\r", b"\n", b"\xff", b"//@ "]) + text[at:]
        elif kind == 4:
            return text[:at] + text[at + 1 :]
        elif kind == 5:
            lines[i] = re.sub(rb"[0-9]+", lambda m: rng.choice([b"18446744073709551615", b"18446744073709551616", b"0" + m.group(0), b"3"]), lines[i], count=1)
        elif kind == 6:
            lines[i] = lines[i] + rng.choice([b" ", b"\r", b" 1", b" 0", b" -1"])
        else:
            lines[i] = rng.choice([b"//@ certificate 3", b"//@ certificate 02", b"//@ certificate 99999999999999999999999", b"//@ end", b"//@ none"])
        text = b"\n".join(lines)
    return text


def big(size):
    out = [b"//@ none\n//@ certificate 2\n//@ inputs 0\n"]
    clause = b"//@ c 123456 -654321 999999 1 -20\n"
    count = max(1, (size - 100) // (2 * len(clause)))
    out.append(b"//@ lower 1000000 %d %d\n//@ names 1\n" % (count, count))
    out.append(clause * count)
    out.append(clause.replace(b"//@ c", b"//@ l") * count)
    out.append(b"//@ end\n")
    return b"".join(out)


def cut(text):
    return [text[:at] for at in range(len(text))]


def with_lines(change):
    """The text with each of its lines changed in turn."""

    def texts(text):
        lines = text.split(b"\n")[:-1]
        return [b"".join(l + b"\n" for l in lines[:i] + change(lines[i]) + lines[i + 1 :]) for i in range(len(lines))]

    return texts


def at_digit(more):
    return with_lines(lambda line: [re.sub(rb"[0-9]", lambda m: more + m.group(0), line, count=1)])


WAYS = {
    "whole": lambda text: [text],
    "cut": cut,
    "without": with_lines(lambda line: []),
    "twice": with_lines(lambda line: [line, line]),
    "return": with_lines(lambda line: [line + b"\r"]),
    "blank": with_lines(lambda line: [line + b" "]),
    "zero": at_digit(b"0"),
    "large": at_digit(b"18446744073709551616"),
}


def runs(ends):
    """The ends, with the number of those in a row that are alike before each."""
    out = []
    for end in ends:
        if out and out[-1][1] == end:
            out[-1][0] += 1
        else:
            out.append([1, end])
    return "".join(f"{n} {end}\n" for n, end in out).encode()


def row(title, way, text):
    mark, body = (b"---\n", text) if text == b"" or text.endswith(b"\n") else (b"--- no line feed\n", text + b"\n")
    wanted = runs(verdict(other) for other in WAYS[way](text))
    return b"=== " + title.encode() + b"\n" + way.encode() + b"\n" + mark + body + b"--- ends\n" + wanted + b"\n"


HEAD = b"//@ none\n//@ certificate 2\n//@ inputs 1\n"
MANY = b"//@ none\n//@ certificate 2\n//@ inputs 0\n"
PART = b"//@ lower 2 1 1\n//@ names 1 2\n//@ c 1 -2\n//@ l\n//@ end\n"

# Texts in one piece: the title, and the text.
WHOLE = [
    ("no bytes", b""),
    ("a program without a result", b"int N = 1;\n"),
    ("a program of blank lines", b"\n\n" + SEEDS[0]),
    ("a program with a byte that is not ASCII", b"int N = \xff;\n" + SEEDS[0]),
    ("a program line that begins with a mark", b"//@x\n" + SEEDS[0]),
    ("a program line that begins with two strokes", b"//x\n" + SEEDS[0]),
    ("the greatest and the least scalar", HEAD + b"//@ input 18446744073709551615 9223372036854775807,-9223372036854775808 0\n" + PART),
    ("a scalar above the greatest", HEAD + b"//@ input 0 9223372036854775808\n" + PART),
    ("a scalar below the least", HEAD + b"//@ input 0 -9223372036854775809\n" + PART),
    ("a zero with a sign", HEAD + b"//@ input 0 -0\n" + PART),
    ("a scalar with a plus", HEAD + b"//@ input 0 +1\n" + PART),
    ("an argument without scalars", HEAD + b"//@ input 0 \n" + PART),
    ("an argument that ends in a comma", HEAD + b"//@ input 0 1,\n" + PART),
    ("an input without its obligation", HEAD + b"//@ input\n" + PART),
    ("a value of 64 bits", b"//@ completion\n//@ value 18446744073709551615\n//@ holes 18446744073709551615\n//@ certificate 2\n//@ inputs 0\n" + PART),
    ("a hole of 65 bits", b"//@ completion\n//@ value 0\n//@ holes 18446744073709551616\n//@ certificate 2\n//@ inputs 0\n//@ end\n"),
    ("a value above 0 without a lower part", b"//@ completion\n//@ value 1\n//@ holes\n//@ certificate 2\n//@ inputs 0\n//@ end\n"),
    ("a value of 0 with a lower part", b"//@ completion\n//@ value 0\n//@ holes\n//@ certificate 2\n//@ inputs 0\n" + PART),
    ("no choice with an upper part", HEAD + b"//@ input 0\n//@ upper 0 1 0 0\n//@ names\n" + PART),
    ("version 1 with two upper parts", SEEDS[2].replace(b"//@ end", b"//@ upper 1 0 0\n//@ names\n//@ end")),
    ("version 1 without an upper part", b"//@ completion\n//@ value 0\n//@ holes\n//@ certificate 1\n//@ inputs 0\n//@ end\n"),
    ("version 2 with an upper part without a number", SEEDS[2].replace(b"certificate 1", b"certificate 2")),
    ("upper parts out of order", SEEDS[1].replace(b"//@ upper 1 2", b"//@ upper 2 2")),
    ("a literal 0", HEAD + b"//@ input 0\n" + PART.replace(b"1 -2", b"1 0")),
    ("a negated literal 0", HEAD + b"//@ input 0\n" + PART.replace(b"1 -2", b"1 -0")),
    ("a literal past the variables", HEAD + b"//@ input 0\n" + PART.replace(b"1 -2", b"1 -3")),
    ("a literal twice and its opposite", HEAD + b"//@ input 0\n" + PART.replace(b"1 -2", b"1 1 -1")),
    ("a name 0", HEAD + b"//@ input 0\n" + PART.replace(b"names 1 2", b"names 0 2")),
    ("a name past the variables", HEAD + b"//@ input 0\n" + PART.replace(b"names 1 2", b"names 1 3")),
    ("a negated name", HEAD + b"//@ input 0\n" + PART.replace(b"names 1 2", b"names -1")),
    ("a name twice", HEAD + b"//@ input 0\n" + PART.replace(b"names 1 2", b"names 1 1")),
    ("fewer clauses than are said", HEAD + b"//@ input 0\n" + PART.replace(b"lower 2 1 1", b"lower 2 2 1")),
    ("more clauses than are said", HEAD + b"//@ input 0\n" + PART.replace(b"lower 2 1 1", b"lower 2 0 1")),
    ("as many variables as 64 bits number", MANY + b"//@ lower 18446744073709551615 0 0\n//@ names\n//@ end\n"),
    ("the greatest variable, in a clause, a log and names", MANY + b"//@ lower 18446744073709551615 1 1\n//@ names 18446744073709551615\n//@ c 18446744073709551615\n//@ l -18446744073709551615\n//@ end\n"),
    ("a name past the greatest variable", MANY + b"//@ lower 18446744073709551615 0 0\n//@ names 18446744073709551616\n//@ end\n"),
    ("very many variables, and fewer clauses than are said", MANY + b"//@ lower 18446744073709551615 2 0\n//@ names\n//@ c 1\n//@ end\n"),
    ("bytes behind the last line", SEEDS[3] + b"\n"),
    ("version 0", SEEDS[0].replace(b"certificate 2", b"certificate 0")),
    ("version 3", SEEDS[0].replace(b"certificate 2", b"certificate 3")),
    ("version 3 at the end, without a line feed", b"//@ none\n//@ certificate 3"),
    ("version 2 at the end, without a line feed", b"//@ none\n//@ certificate 2"),
    ("a version of 30 digits", SEEDS[0].replace(b"certificate 2", b"certificate 999999999999999999999999999999")),
    ("a version with a zero before it", SEEDS[0].replace(b"certificate 2", b"certificate 03")),
    ("a version and a blank", SEEDS[0].replace(b"certificate 2", b"certificate 3 ")),
    ("two versions", SEEDS[0].replace(b"certificate 2", b"certificate 3 4")),
    ("no version", SEEDS[0].replace(b"certificate 2", b"certificate")),
    ("another version where the value stands", b"//@ completion\n//@ certificate 4\n"),
    ("another version in place of the result", b"//@ certificate 4\n"),
    ("another version behind the end", SEEDS[0] + b"//@ certificate 5\n"),
]

NAMES = ["of the empty sketch", "with two obligations and a lower part", "of version 1", "that there is no completion"]


def data():
    out = [b"# Texts of certificates, and of others. Written by `bench/certificates.py data`, by rules of its own.\n\n"]
    for name, text in zip(NAMES, SEEDS):
        out += [row(f"a certificate {name}: {way}", way, text) for way in WAYS]
    out += [row(title, "whole", text) for title, text in WHOLE]
    return b"".join(out)


def main():
    if sys.argv[1] == "check":
        print(verdict(open(sys.argv[2], "rb").read()))
    elif sys.argv[1] == "data":
        sys.stdout.buffer.write(data())
    elif sys.argv[1] == "rows":
        rng = random.Random(int(sys.argv[3]))
        for at in range(int(sys.argv[2])):
            sys.stdout.buffer.write(row(str(at), "whole", mutated(rng, rng.choice(SEEDS))))
    elif sys.argv[1] == "big":
        sys.stdout.buffer.write(big(int(sys.argv[2])))


if __name__ == "__main__":
    main()
