#!/usr/bin/env python3
"""Finds the least stack under which lines on the deepest texts end as with ample stack, and what programs say that start on too little.

    stack.py PROGRAM [CHECKER] [--only WORD]

PROGRAM is the built `sketch`, and CHECKER the built `sketch_check`. First they are started under limits round the 7,168 KiB below which they end with 17 (`ulimit -s`), and without one. The texts nest, in eleven forms, as deep as one function's tree may, as deep as a run or an expansion may, and, for `lower`, switches in
switches. Each line is run under stacks of other sizes, to 32 KiB, from 8,192 KiB downwards; as it looks at the limit when it starts, the limit is lowered once it waits for its input. For each line the script prints the
form that needs most, how it ends, the least stack in KiB, and what is left of 8,192; its status is 1 where a line ends otherwise on 8,192 KiB than on 65,536, or a start otherwise than it has to."""
import argparse
import os
import resource
import subprocess
import sys
import time

WHOLE, STEP, AMPLE = 8192, 32, 65536
LEAST = 7340032
EASY = b"harness void main(int x) { assert x + ??(1) == x; }\n"

# What opens and closes a level, and what has to stand before the functions.
FORMS = {
    "parentheses": ("(", ")", ""),
    "minus signs": ("- ", "", ""),
    "sums": ("", " + 0", ""),
    "sums to the right": ("0 + (", ")", ""),
    "choices": ("x == 7 ? ", " : 0", ""),
    "arguments": ("same(", ")", "int same(int x) { return x; }\n"),
    "braces": ("first({", "})", "int first(int[1] a) { return a[0]; }\n"),
    "records": ("new S(n = ", ").n", "struct S { int n; }\n"),
    "blocks": ("{ ", " }", ""),
    "conditions": ("if (x == 7) ", "", ""),
    "loops": ("while (x == 7) ", "", ""),
}
STATEMENTS = ("blocks", "conditions", "loops")


def nested(form, levels, inside):
    opened, closed, _ = FORMS[form]
    return opened * levels + inside + closed * levels


def returned(form, levels, value):
    """A statement that gives back a value from so many levels."""
    return nested(form, levels, f"return {value};") if form in STATEMENTS else f"return {nested(form, levels, value)};"


def hole(form, levels):
    inside = nested(form, levels, "y = ??(1);") if form in STATEMENTS else f"y = {nested(form, levels, '??(1)')};"
    return f"{FORMS[form][2]}harness void main(int x) {{ assume x == 7; int y = 0; {inside} x = 0; assert y <= 1; }}\n"


def calls(form, levels, count=127):
    functions = "".join(f"int f{k}(int x) {{ {returned(form, levels, f'f{k + 1}(x)')} }}\n" for k in range(count))
    return f"{FORMS[form][2]}{functions}int f{count}(int x) {{ return x; }}\n"


def copies(form, levels, count=40):
    functions = "".join(f"generator int f{k}(int x) {{ {returned(form, levels, f'f{k + 1}(x)')} }}\n" for k in range(count))
    return f"{FORMS[form][2]}{functions}generator int f{count}(int x) {{ return x; }}\nharness void main(int x) {{ assert f0(x) == x; }}\n"


def switches(_, levels):
    return f"adt A {{ V {{ int n; }} }}\nvoid f(A x) {{ {'switch (x) { case V: { ' * levels}x.n = 1; {'} } ' * levels}}}\n"


def waits(process):
    """Whether a process sleeps, as one does that waits for its input."""
    with open(f"/proc/{process.pid}/stat") as file:
        return file.read().rpartition(")")[2].split()[0] in "SZ"


def ended(program, words, text, kilobytes):
    """The status of a run, and what it writes, on a stack of this size, to which it is brought once it waits for its input."""
    size = kilobytes << 10
    cap = lambda: resource.setrlimit(resource.RLIMIT_STACK, (AMPLE << 10, AMPLE << 10))
    asked = subprocess.Popen([program, *words], stdin=subprocess.PIPE, stdout=subprocess.PIPE, stderr=subprocess.PIPE, preexec_fn=cap)
    while not waits(asked):
        time.sleep(0.001)
    resource.prlimit(asked.pid, resource.RLIMIT_STACK, (size, size))
    out, said = asked.communicate(text)
    return asked.returncode, out, said


def started(program, words, text, limit):
    """The same, where the program starts on such a stack, of so many bytes."""
    cap = lambda: resource.setrlimit(resource.RLIMIT_STACK, (limit, limit))
    ran = subprocess.run([program, *words], input=text, capture_output=True, preexec_fn=cap)
    return ran.returncode, ran.stdout, ran.stderr


def starts(program, words, text):
    """Whether starts on stacks round the least end as they have to: on less with 17 and a line, on as much as with ample stack."""
    wanted, is_right = started(program, words, text, AMPLE << 10), True
    for limit in (LEAST >> 5, 4096 << 10, LEAST - 1, LEAST, WHOLE << 10, resource.RLIM_INFINITY):
        said = started(program, words, text, limit)
        is_short = 0 <= limit < LEAST
        is_as_wanted = said == ((17, b"", b"small stack %d %d\n" % (limit, LEAST)) if is_short else wanted)
        is_right = is_right and is_as_wanted
        print(f"{os.path.basename(program)} starts on {limit} bytes | status {said[0]} | {said[2].decode().strip()} | {'as it has to' if is_as_wanted else 'WRONG'}", flush=True)
    return is_right


def deepest(program, words, make, form):
    """The greatest number of levels at which a line still ends well, and its text."""
    low, high = 1, 256
    while high - low > 1:
        middle = (low + high) // 2
        low, high = (middle, high) if ended(program, words, make(form, middle).encode(), AMPLE)[0] < 10 else (low, middle)
    return low, make(form, low).encode()


def least(program, words, text):
    """The least stack on which a line ends as with ample stack."""
    wanted = ended(program, words, text, AMPLE)
    low, high = 0, WHOLE // STEP
    if ended(program, words, text, WHOLE) != wanted:
        return None
    while high - low > 1:
        middle = (low + high) // 2
        low, high = (low, middle) if ended(program, words, text, middle * STEP) == wanted else (middle, high)
    return high * STEP


def certified(program, text):
    out = subprocess.run([program, "synth", "--cert", "--bnd-unroll-amnt", "1"], input=text, capture_output=True).stdout
    return text + b"//%%\n" + out


LINES = [
    ("a sketch", "synth --bnd-unroll-amnt 1", hole, FORMS),
    ("its certificate", "synth --cert --bnd-unroll-amnt 1", hole, FORMS),
    ("the certificate judged", "check --bnd-unroll-amnt 1", hole, FORMS),
    ("its completions", "all 2 --bnd-unroll-amnt 1", hole, FORMS),
    ("why", "why --bnd-unroll-amnt 1", hole, FORMS),
    ("a run of 128 calls", "exec f0 7", calls, FORMS),
    ("a trace of 128 calls", "trace f0 7", calls, FORMS),
    ("a search over 128 calls", "synth --bnd-inbits 1", lambda form, levels: calls(form, levels) + "harness void main(int x) { assert f0(x) == x; }\n", FORMS),
    ("an expansion of 40 copies", "synth --bnd-inbits 1", copies, FORMS),
    ("a lowering", "lower", switches, ["switches"]),
]


def main():
    parser = argparse.ArgumentParser()
    parser.add_argument("program")
    parser.add_argument("checker", nargs="?")
    parser.add_argument("--only", default="")
    given = parser.parse_args()
    program = os.path.abspath(given.program)
    is_enough = starts(program, ["synth"], EASY)
    if given.checker:
        is_enough = starts(os.path.abspath(given.checker), [], certified(program, EASY)) and is_enough
    for title, line, make, forms in LINES:
        if given.only not in title:
            continue
        found, words = [], line.split()
        for form in forms:
            levels, text = deepest(program, ["synth", *words[1:]] if words[0] == "check" else words, make, form)
            text = certified(program, text) if words[0] == "check" else text
            need = least(program, words, text)
            is_enough = is_enough and need is not None
            found.append((need or AMPLE, form, levels, ended(program, words, text, AMPLE)[0]))
            print(f"  {title} | {form} | {levels} levels | status {found[-1][3]} | {need or 'more than 8,192'} KiB", flush=True)
        need, form, levels, status = max(found)
        print(f"{title} | {form}, {levels} levels | status {status} | {need} KiB, {WHOLE - need} left", flush=True)
    return 0 if is_enough else 1


if __name__ == "__main__":
    sys.exit(main())
