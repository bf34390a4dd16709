#!/usr/bin/env python3
"""Rows of certificates that are accepted, of sketches whose values are known.

  accepted.py > crates/rows_checks/data/accepted.txt

The sketches are those of the rows of crates/rows_commands that say a value, or that there is no completion, and those of bench/sketches,
whose second line says it; short ones, of each text with its bounds one row, and at most 200 in all: of each file as many in equal strides.
No row says what stands in the certificate but its value: it has a line `//@ value V` or `//@ none`, and it is accepted. The script asks nothing of the program."""
import pathlib
import re
import sys

import cases

TOP = pathlib.Path(__file__).resolve().parents[2]
MOST, LONGEST = 200, 500
BOUNDS = tuple(cases.OPTIONS)
# A sketch whose certificate takes ten seconds.
LONG_RUNS = {("bench", "parity_32.sk")}


def bounds_of(words):
    """The words that set bounds."""
    pairs = [w for word in words for w in word.split("=", 1)]
    return [w for name, value in zip(pairs, pairs[1:]) if name in BOUNDS for w in (name, value)]


def value_of(ends):
    """The line of the certificate that says the value; none where the answers say more than one, or no value."""
    found = set()
    for head, body in ends:
        value = re.search(r"^//@ value \d+$", body, re.M)
        found.add("//@ none" if head == "1" else value[0] if head == "0" and value else None)
    return found.pop() if len(found) == 1 else None


def of_rows():
    for path in sorted(set(cases.DATA.glob("*.txt")) - {cases.DATA / "budgets.txt"}):
        for title, line, settings, text, ends in cases.rows(path):
            if line.startswith("synth") and settings in ([], ["once"]) and value_of(ends):
                yield path.stem, title, bounds_of(line.split()), text, value_of(ends)


def of_bench():
    for path in sorted((TOP / "bench/sketches").glob("*.sk")):
        text = path.read_text()
        first, second = text.split("\n")[:2]
        found = re.fullmatch(r"// status (\d)(?: value (\d+))?", second)
        yield "bench", path.name, bounds_of(first.removeprefix("// ").split()), text, f"//@ value {found[2]}" if found[1] == "0" else "//@ none"


def is_plain(text):
    """Whether a text stands in a block as it is."""
    return all(c == "\n" or " " <= c <= "~" for c in text) and not re.search(r"^(---|===|#|//%%$)", text, re.M)


def sketches():
    seen = set()
    for file, title, words, text, value in [*of_rows(), *of_bench()]:
        text = text if text.endswith("\n") or not text else text + "\n"
        if (text, *words) not in seen and (file, title) not in LONG_RUNS and len(text) <= LONGEST and is_plain(text):
            seen.add((text, *words))
            yield file, title, words, text, value


def chosen(listed):
    """At most so many, in equal strides."""
    return [listed[k * len(listed) // MOST] for k in range(MOST)] if len(listed) > MOST else listed


def main():
    print("# Written by bench/reference/accepted.py, which says how: certificates of sketches whose values are known. Each has the line that says the\n# value, which stays as it is, and is accepted.")
    before = None
    for file, title, words, text, value in chosen(list(sketches())):
        print(f"\n# {'bench/sketches' if file == 'bench' else file + '.txt'}\n" if file != before else "")
        before = file
        line = " ".join(["synth --cert", *words])
        print(f"=== {title}\n{line}\nline {value} => {value}\n{' '.join(['check', *words])}\n---\n{text}--- 0\naccepted")


if __name__ == "__main__":
    sys.exit(main())
