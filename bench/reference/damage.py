#!/usr/bin/env python3
"""Rows of lines whose streams fail, give and take few bytes at a time, end by giving none, or make no room, for every command of the program.

  damage.py > crates/rows_commands/data/stream_faults.txt

Of a call with a text of n bytes and steps of s bytes, the source is asked once for each s bytes and once behind them; the sink takes what is
written s bytes at a time. A line whose read fails writes nothing. One whose write fails has written what the writes before it took. A source that gives
no bytes has ended, and a line whose sink makes no room writes nothing. The whole results below are known apart: from the rows of the other files, by hand. A sketch without functions has a certificate without parts, which is
written by hand. The lines `self`, `--help` and `--version` read nothing; of the help the front is known."""
import sys

DOUBLED = "harness void doublesketch(int x){\n  int t = x * ??;\n  assert t == x + x;\n}\n"
DONE = "harness void doublesketch(int x) {\n    int t = x * 2;\n    assert t == x + x;\n}\n//@ completion\n//@ value 0\n//@ holes 2\n"

RECORD = "struct S { int v; }\n"
CERTIFIED = "struct S {\n    int v;\n}\n//@ completion\n//@ value 0\n//@ holes\n//@ certificate 2\n//@ inputs 0\n//@ end\n"
SELF = "self 0\nfunctions 2\nsites 3\nsteps 158\nvalue 0\nstatus 0\n"
HELP = "Completes sketches"
PRODUCTS = "x * (y + z) == x * y + x * z"

# (title, words, text, status, what is written)
LINES = [
    ("synth, a completion", "synth", DOUBLED, 0, DONE),
    ("synth, none", "synth", "harness void f(int x) { assert x + ?? == x + 40; }\n", 1, "//@ none\n"),
    ("synth, spent", "synth --rounds 1", "harness void main(int x) { assert x != 7; }\n", 2, "//@ spent rounds 1\n//@ choice\n//@ input 0 7\n"),
    (
        "synth, spent with a completion",
        "synth --bnd-inbits 1 --rounds 1",
        "harness void m(int x) { minimize(x); }\n",
        3,
        "harness void m(int x) {\n    minimize(x);\n}\n//@ completion\n//@ holes\n//@ spent rounds 1\n//@ choice\n//@ input 0 1\n",
    ),
    ("exec, done", "exec twice 5", "int twice(int x) {\n    minimize(x);\n    return x + x;\n}\n", 0, "result 10\ncost 5\n"),
    ("exec, failed", "exec f 2", "void f(int x) { assert x > 2; }\n", 4, "failed 16 29\n"),
    ("exec, skipped", "exec f 2", "void f(int x) { assume x > 2; }\n", 5, "skipped 16 29\n"),
    (
        "trace, done",
        "trace f 3",
        "int f(int x) { int y = x + 1; assert y > 3; return y; }\n",
        0,
        "1 15 29 store 4\n1 30 43 true\n1 44 53 go\nresult 4\ncost 0\n",
    ),
    ("trace, failed", "trace main 1 --holes 0", "harness void main(int x) { assert x + ?? == x * 2; }\n", 4, "1 27 50 false\nfailed 27 50\n"),
    ("lower", "lower", "int f(int x){return x+1;}\n", 0, "int f(int x) {\n    return x + 1;\n}\n"),
    (
        "prune",
        "prune",
        "int f(int x) { return x; }\nharness void main(int x) { if (0) { assert f(x) == 1; } assert x == x; }\n",
        0,
        "harness void main(int x) {\n    assert x == x;\n}\n",
    ),
    ("all", "all 5", "harness void main(int x) { int n = ??(2); assert n > 1; minimize(n / 2); }\n", 0, "//@ holes 2\n//@ holes 3\n//@ all\n"),
    ("why, an input", "why", "harness void main(int x) { assert x != 7; }\n", 0, "//@ input 0 7\n//@ why 1\n"),
    ("why, a choice", "why", DOUBLED, 7, "//@ met\n//@ holes 2\n"),
    ("the version", "--version", "", 0, "sketch 0.1.0\n"),
    ("synth with a certificate", "synth --cert", RECORD, 0, CERTIFIED),
    ("synth with a certificate, spent before it", "synth --cert --rounds 1", "harness void main(int x) { assert x != 7; }\n", 2, "//@ spent rounds 1\n//@ choice\n//@ input 0 7\n"),
    (
        "synth with a certificate, conflicts spent",
        "synth --cert --conflicts 1",
        f"harness void main(int x, int y, int z) {{ assert {PRODUCTS} + ??; }}\n",
        2,
        "//@ spent conflicts 1\n",
    ),
    (
        "synth with a certificate, conflicts spent with a completion",
        "synth --cert --conflicts 1",
        f"harness void m(int x, int y, int z) {{ minimize({PRODUCTS} ? 0 : 1); }}\n",
        3,
        f"harness void m(int x, int y, int z) {{\n    minimize({PRODUCTS} ? 0 : 1);\n}}\n//@ completion\n//@ holes\n//@ spent conflicts 1\n",
    ),
    ("check, accepted", "check", f"{RECORD}//%%\n{CERTIFIED}", 0, "accepted\n"),
    ("check, rejected", "check", f"{RECORD}//%%\n{CERTIFIED.replace('holes', 'holes 0')}", 6, "rejected 1\n"),
    ("self", "self 0", "", 0, SELF),
]
# (title, words, text, status, the message)
REFUSED = [
    ("a text that is refused", "synth", "void f() { y = 1; }\n", 12, " type 1 11 12"),
    ("a text with an open part", "prune", "void f() { int x = ??; }\n", 18, " exec Unfilled"),
    ("a function that is not there", "exec g", "void f() { }\n", 18, " exec NoFunction"),
    ("a certificate of another form", "check", f"{RECORD}//%%\n{CERTIFIED.replace('certificate 2', 'certificate 7')}", 19, " certificate Version 7"),
    ("no line", "synth exec", "", 10, " usage"),
]
# Words of lines that read nothing.
UNREAD = ("--", "self")


def escaped_of(text):
    return text.replace("\\", "\\\\").replace("\n", "\\n")


def row(title, words, settings, text, status, message, out):
    """One row, its text and what is written with escapes."""
    escaped, said = escaped_of(text), escaped_of(out)
    once = ["once"] if "--cert" in words and status == 0 else []
    lines = [f"=== {title}", words, "escaped", *once, *settings, "--- no line feed" if text else "---"]
    lines += [escaped] if text else []
    lines += [f"--- {status}{message}" + (" no line feed" if out else "")]
    lines += [said] if out else []
    print("\n".join(lines) + "\n")


def both(title, words, settings, *rest):
    """The row over streams in memory, and behind the adapters of standard input and output."""
    row(title, words, settings, *rest)
    row(f"{title}, behind the adapters", words, [*settings, "adapted"], *rest)


def calls(length, step):
    return -(-length // step)


def reads(title, words, text, step):
    if words.startswith(UNREAD):
        return
    count = calls(len(text), step) + 1
    for k in range(count):
        both(f"{title}: read {k + 1} of {count} fails", words, [f"source {step} fails {k}"], text, 14, " read fault", "")


def writes(title, words, text, out, step):
    count = calls(len(out), step)
    for k in range(count):
        both(f"{title}: write {k + 1} of {count} fails", words, [f"sink {step} fails {k}"], text, 15, " write fault", out[: step * k])


def shorts(title, words, text, status, out):
    for r in range(1, 10):
        both(f"{title}: {r} bytes a read, {10 - r} a write", words, [f"source {r}", f"sink {10 - r}"], text, status, "", out)


def ends(title, words, text, status, out):
    """The source gives no bytes where it ends, and the sink makes no room."""
    if not words.startswith(UNREAD):
        both(f"{title}: no bytes at the end", words, ["zero"], text, status, "", out)
        both(f"{title}: 5 bytes a read, and none at the end", words, ["source 5", "zero"], text, status, "", out)
    full(title, words, text)


def full(title, words, text):
    both(f"{title}: no room", words, ["full"], text, 17, " no memory", "")


def of_help():
    """The front of the help: writes of six bytes that fail, a sink without room, and short writes."""
    print("# the help\n")
    full("the help", "--help", "")
    for k in range(4):
        both(f"the help: write {k + 1} fails", "--help", [f"sink 6 fails {k}"], "", 15, " write fault", HELP[: 6 * k])
    for w in range(1, 10):
        for settings in ([], ["adapted"]):
            print("\n".join([f"=== the help: {w} bytes a write{', behind the adapters' if settings else ''}", "--help", f"sink {w}", *settings, "---", "--- 0", f"{HELP}.."]) + "\n")


def of_refused():
    """Texts that are refused, and words that are no line: no room is asked for."""
    print("# What is refused writes nothing, so it asks for no room.\n")
    for title, words, text, status, message in REFUSED:
        both(f"{title}: no room", words, ["full"], text, status, message, "")
    both("a text that is refused: no bytes at the end", "synth", ["zero"], REFUSED[0][2], 12, REFUSED[0][4], "")


def main():
    print("# Written by bench/reference/damage.py, which says how: lines whose reads and writes fail in turn, streams of a few bytes a call, sources that give no bytes at their end, and sinks without room.\n")
    print("# A completion: each read and each write of a byte fails in turn.\n")
    reads("one byte a call", "synth", DOUBLED, 1)
    writes("one byte a call", "synth", DOUBLED, DONE, 1)
    for title, words, text, status, out in LINES:
        print(f"# {title}\n")
        reads(title, words, text, 8)
        writes(title, words, text, out, 10)
        shorts(title, words, text, status, out)
        ends(title, words, text, status, out)
    of_help()
    of_refused()


if __name__ == "__main__":
    sys.exit(main())
