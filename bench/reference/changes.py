#!/usr/bin/env python3
"""Rows of certificates that are changed line by line: left out, doubled, moved, and with a number that is greater by one.

  changes.py > crates/rows_checks/data/changes.txt

The sketches are one with a value above 0, one that nothing completes, and one with two harnesses. The ends follow from the form of
certificates and from their parts: a count that is not that of the lines departs from the form, a formula with a variable more is not that
of the sketch. Which literals stand in a formula and which inputs were found no row says; bench/certificate_turns.py tries every line."""

FOR = {
    "a value above 0": "harness void main(int x) { int t = 0; minrepeat { t = t + 2; } assert t >= 6; }",
    "none": "harness void main(int x) { assert x + ?? == x * 2; }",
    "two harnesses": "harness void a(int x) { } harness void b(int x) { }",
}
NO_FORM = "19 certificate NoForm .."
LEFT_OUT = {
    "a value above 0": [("each before //@ completion", "6 rejected 5"), ("each from //@ completion", "19 certificate NoForm")],
    "none": [("each from //@ none", "19 certificate NoForm")],
    "two harnesses": [("each before //@ completion", "6 rejected 5"), ("each from //@ completion", "19 certificate NoForm")],
}
DOUBLED = {
    "a value above 0": ["completion", "value", "holes", "certificate", "inputs", "input 0", "upper", "names", "c", "l", "lower", "end"],
    "none": ["none", "certificate", "inputs", "input 0", "lower", "names", "c", "l", "end"],
    "two harnesses": ["completion", "value", "holes", "certificate", "inputs", "upper 0", "upper 1", "names", "c", "l", "end"],
}
# A line, and the one before which it is put.
MOVED = {
    "a value above 0": [
        ("//@ completion", "}"),
        ("//@ value 3", "//@ completion"),
        ("//@ holes 3", "//@ value"),
        ("//@ certificate 2", "//@ holes"),
        ("//@ inputs 1", "//@ certificate"),
        ("//@ end", "//@ lower"),
    ],
    "none": [("//@ certificate 2", "//@ none"), ("//@ end", "//@ lower")],
    "two harnesses": [
        ("//@ completion", "}"),
        ("//@ value 0", "//@ completion"),
        ("//@ holes", "//@ value"),
        ("//@ certificate 2", "//@ holes"),
        ("//@ inputs 0", "//@ certificate"),
        ("//@ end", "//@ upper 1"),
    ],
}
REJECTED = [f"6\nrejected {r}" for r in range(7)]
# The number of a word, the line, and the end.
RAISED = {
    "a value above 0": [
        (3, "value", REJECTED[6]),
        (3, "holes", REJECTED[5]),
        (3, "certificate", "19 certificate Version 20"),
        (3, "inputs", NO_FORM),
        (3, "input 0", REJECTED[2]),
        (3, "upper", NO_FORM),
        (4, "upper", REJECTED[6]),
        (5, "upper", NO_FORM),
        (6, "upper", NO_FORM),
        (3, "lower", REJECTED[6]),
        (4, "lower", NO_FORM),
        (5, "lower", NO_FORM),
    ],
    "none": [
        (3, "certificate", "19 certificate Version 2"),
        (3, "inputs", NO_FORM),
        (3, "input 0", REJECTED[2]),
        (3, "lower", REJECTED[6]),
        (4, "lower", NO_FORM),
        (5, "lower", NO_FORM),
    ],
    "two harnesses": [
        (3, "value", NO_FORM),
        (3, "certificate", "19 certificate Version 8"),
        (3, "inputs", NO_FORM),
        (3, "upper 0", NO_FORM),
        (4, "upper 0", REJECTED[6]),
        (5, "upper 0", NO_FORM),
        (6, "upper 0", NO_FORM),
        (3, "upper 1", NO_FORM),
        (4, "upper 1", REJECTED[6]),
        (5, "upper 1", NO_FORM),
        (6, "upper 1", NO_FORM),
    ],
}
WORDS = {"value": ["value"], "holes": ["number"], "certificate": ["version"], "inputs": ["count"], "input": ["obligation"], "upper": ["obligation", "variables", "clauses", "log"], "lower": ["variables", "clauses", "log"]}
# Numbers of variables: how many a formula says it has is nothing that its log asks for, so the formula alone is another one.
MANY = [67108864, 67108865, 4294967295, 4294967296, 18446744073709551615]
# Numbers of a variable past all names and literals, from the first past 65,536 on.
FAR = [65537, 67108864, 2147483648, 4294967295, 18446744073709551615]


def row(title, kind, settings, end):
    mark = "--- ends\n" if settings[-1].startswith("each") else "--- "
    print(f"=== {kind}: {title}\nsynth --cert")
    print("\n".join(settings + ([] if settings[-1].startswith("each") else ["check"])))
    print(f"---\n{FOR[kind]}\n{mark}{end}\n")


def main():
    print("# Written by bench/reference/changes.py, which says how: certificates of which a line is left out, doubled, moved, or has a number that is greater by one.\n")
    for kind in FOR:
        print(f"# {kind}\n")
        for setting, end in LEFT_OUT[kind]:
            row(f"each line is left out in turn, {setting.removeprefix('each ')}", kind, [setting], end)
        for line in DOUBLED[kind]:
            row(f"the line `{line}` stands twice", kind, [f"twice //@ {line}"], NO_FORM)
        for line, before in MOVED[kind]:
            row(f"the line `{line}` stands before `{before}`", kind, [f"without {line}", f"put {before} => {line}"], NO_FORM)
        for number, line, end in RAISED[kind]:
            of = WORDS[line.split()[0]][number - 3]
            row(f"the {of} of the line `{line}` is raised", kind, [f"more {number} //@ {line}"], end)
    kind = "a value above 0"
    row("a line of the program stands twice", kind, ["twice     assert"], REJECTED[5])
    row("two lines of the program change places", kind, ["without     minimize(3);", "put     assert =>     minimize(3);"], REJECTED[5])
    print("# A formula says that it has more variables\n")
    for count in MANY:
        row(f"{count} variables in the upper part", kind, [f"word 4 //@ upper => {count}"], REJECTED[6])
        row(f"{count} variables in the lower part", kind, [f"word 3 //@ lower => {count}"], REJECTED[6])
    print("# A clause of it names one that no formula of its length can have, so that its log is not followed\n")
    for var in FAR:
        row(f"the variable {var} in the upper part", kind, [f"word 4 //@ upper => {var}", "behind //@ upper", f"front //@ c => //@ c {var}"], "17 no memory")
        row(f"the variable {var} in the lower part", kind, [f"word 3 //@ lower => {var}", "behind //@ lower", f"front //@ c => //@ c {var}"], "17 no memory")
    print("# So does a clause of the log\n")
    row("the variable 67108864 in the log of the upper part", kind, ["word 4 //@ upper => 67108864", "behind //@ upper", "front //@ l => //@ l 67108864"], "17 no memory")
    row("the variable 67108864 in the log of the lower part", kind, ["word 3 //@ lower => 67108864", "behind //@ lower", "front //@ l => //@ l 67108864"], "17 no memory")


main()
