"""What `check` has to say of a sketch with a certificate, by rules written apart from the program.

    checks.py INPUT [ORIGINAL] [WORDS ..]

INPUT is a file as `check` reads it: a sketch, a line `//%%`, and a certificate. WORDS are the bounds of the line. The script prints
each answer that is right: `certificate NAME LINE`, `rejected R` or `accepted`. Which formula a query has is not made here: where
ORIGINAL, the certificate of the same sketch that the program wrote, is given, a formula has to be the one that it lists for the
same question; without it, or where the question is another, both `rejected 6` and `accepted` are right of a certificate of which
all other parts hold.

The form is judged by bench/certificates.py, logs by `logs.py`, and sites, inputs and layouts by `sketch.py`.
"""
import dataclasses
import functools
import pathlib
import sys

sys.path[:0] = [str(pathlib.Path(__file__).resolve().parent), str(pathlib.Path(__file__).resolve().parents[1])]
import cases  # noqa: E402
import certificates  # noqa: E402
import logs  # noqa: E402
import sketch  # noqa: E402

MARK, MOST_BYTES, MOST_SKETCH = b"//%%", 67108864, 1048576
VALUES, INPUTS, UPPER, LOWER, TEXT, FORMULA = range(1, 7)


@dataclasses.dataclass(frozen=True)
class Part:
    """A formula with the names of what it speaks of, and its log. Clauses are tuples of numbers, as the text has them."""

    variables: int
    names: tuple
    clauses: tuple
    log: tuple

    def formula(self):
        return self.variables, self.names, self.clauses


@dataclasses.dataclass
class Certificate:
    """A certificate of the right form. Without a choice its holes are None."""

    version: int
    text: str
    value: int
    holes: list
    inputs: list  # an obligation, and the scalars of each argument
    upper: list
    lower: Part


def divided(text):
    """The sketch, and what stands behind the first line `//%%`."""
    at = 0
    for line in text.split(b"\n"):
        if line == MARK:
            return text[:at], text[at + len(MARK) + 1 :]
        at += len(line) + 1
    return text, b""


class Lines:
    """The words of the lines of a certificate of the right form, one after another."""

    def __init__(self, text):
        self.lines = text.decode("ascii").split("\n")[:-1]
        self.at = 0

    def next_is(self, kind):
        line = self.lines[self.at] if self.at < len(self.lines) else ""
        return line == f"//@ {kind}" or line.startswith(f"//@ {kind} ")

    def words(self):
        self.at += 1
        return self.lines[self.at - 1].split(" ")[2:]

    def numbers(self):
        return tuple(map(int, self.words()))


def part(lines):
    variables, clauses, log = lines.numbers()[-3:]
    return Part(variables, lines.numbers(), tuple(lines.numbers() for _ in range(clauses)), tuple(lines.numbers() for _ in range(log)))


def an_input(words):
    return int(words[0]), tuple(tuple(map(int, word.split(","))) for word in words[1:])


def read(text):
    """The certificate that a text of the right form is."""
    lines, program, upper = Lines(text), [], []
    while not lines.next_is("completion") and not lines.next_is("none"):
        program.append(lines.lines[lines.at] + "\n")
        lines.at += 1
    is_completion = lines.next_is("completion")
    lines.at += 1
    value, holes = (lines.numbers()[0], list(lines.numbers())) if is_completion else (0, None)
    (version,) = lines.numbers()
    inputs = [an_input(lines.words()) for _ in range(lines.numbers()[0])]
    while lines.next_is("upper"):
        upper.append(part(lines))
    return Certificate(version, "".join(program), value, holes, inputs, upper, part(lines) if lines.next_is("lower") else None)


@functools.lru_cache(256)
def refutes(clauses, log):
    return logs.first_break(clauses, log) is None


class Sketch:
    """What is asked of a sketch: its sites, its obligations with the types of their parameters, and its fillings."""

    def __init__(self, text, words):
        options, _ = cases.bounds(words)
        program, self.bounds = sketch.load(text.decode("latin1"), **options)
        self.program = sketch.expand(program, self.bounds)
        self.sites = sketch.sites(self.program, self.bounds)
        functions = {f.name: f for f in self.program.funs}
        self.obligations = [[ty for _, ty, _ in functions[o[1]].params] for o in sketch.obligations(self.program)]

    def is_value(self, scalars, ty):
        """Whether scalars are those of an input of a type."""
        width, count = 1, 1
        while ty[0] == "arr":
            count, ty = count * ty[2], ty[1]
        width = self.bounds["inbits"] if ty == sketch.INT else 1
        return len(scalars) == count and all(0 <= n < 1 << width for n in scalars)

    def is_input(self, listed):
        obligation, args = listed
        if obligation >= len(self.obligations):
            return False
        types = self.obligations[obligation]
        return len(args) == len(types) and all(map(self.is_value, args, types))

    def layout(self, holes):
        return sketch.layout(sketch.fill(self.program, holes))


def has_values(asked, c):
    return c.holes is None or len(c.holes) == len(asked.sites) and all(n < size for n, size in zip(c.holes, asked.sites))


def has_upper(asked, c):
    is_count = c.holes is None or c.version == 1 or len(c.upper) == len(asked.obligations)
    return is_count and all(refutes(p.clauses, p.log) for p in c.upper)


def first_failure(asked, c):
    """The first part that does not hold, but for formulas; none where all hold."""
    if not has_values(asked, c):
        return VALUES
    if not all(map(asked.is_input, c.inputs)) or len(set(c.inputs)) < len(c.inputs):
        return INPUTS
    if not has_upper(asked, c):
        return UPPER
    if c.lower and not refutes(c.lower.clauses, c.lower.log):
        return LOWER
    if c.text != ("" if c.holes is None else asked.layout(c.holes)):
        return TEXT
    return None


def questions(c):
    """For each formula of a certificate what it is asked for."""
    upper = [("upper", c.version, i, tuple(c.holes), c.value) for i in range(len(c.upper))]
    limit = None if c.holes is None else c.value
    return upper + ([("lower", tuple(c.inputs), limit)] if c.lower else [])


def formulas(c):
    return [p.formula() for p in c.upper + ([c.lower] if c.lower else [])]


def of_formulas(c, original):
    """What is right to say of a certificate of which all parts but the last hold."""
    known = dict(zip(questions(original), formulas(original))) if original else {}
    asked = list(zip(questions(c), formulas(c)))
    if any(question in known and known[question] != found for question, found in asked):
        return [f"rejected {FORMULA}"]
    if all(question in known for question, _ in asked):
        return ["accepted"]
    return ["accepted", f"rejected {FORMULA}"]


def answers(text, words, original=None, asked=None):
    """Each answer that is right of an input of `check`. The sketch has to be one that is taken."""
    before, behind = divided(text)
    if len(text) > MOST_BYTES or len(before) > MOST_SKETCH:
        return ["too long"]
    form = certificates.verdict(behind)
    if form != "reads":
        return [f"certificate {form}"]
    asked, c = asked or Sketch(before, words), read(behind)
    failure = first_failure(asked, c)
    return [f"rejected {failure}"] if failure else of_formulas(c, original)


def main(words):
    files = [word for word in words[:2] if not word.startswith("--")]
    texts = [pathlib.Path(file).read_bytes() for file in files]
    original = read(texts[1]) if len(texts) > 1 else None
    print("\n".join(answers(texts[0], words[len(files) :], original)))


if __name__ == "__main__":
    main(sys.argv[1:])
