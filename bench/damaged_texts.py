#!/usr/bin/env python3
"""Damages texts at every place, and asks that the program ends on each as the reference does, and never by a signal.

    damaged_texts.py PROGRAM [--only NUMBER] [--every N]

PROGRAM is the built `sketch`. Of five texts, which together hold every form of the language, each front is a text, and so is each text with one byte left
out, doubled, or replaced by each of `{ } ( ) ; | ? "` and the bytes 0 and 255. A line `exec none` reads, types and expands it (`lower` where there are
algebraic types): it has to end with the kind of fault that bench/reference finds, or with `exec NoFunction`, or with the lowered text. Of faults of types that the
reference finds any may be named, and of a text that breaks tags and has other faults too. What is no fault is then completed by `synth` within small budgets, and
compared with the reference's completion where that has few fillings and inputs to try. With `--every N` each N-th damage alone is tried.

It prints how many texts ended how, and each that ended otherwise; then its status is 1."""
import argparse
import collections
import pathlib
import subprocess
import sys

TOP = pathlib.Path(__file__).resolve().parents[1]
sys.path.insert(0, str(TOP / "bench/reference"))
import cases  # noqa: E402
import sketch  # noqa: E402

OTHERS = [bytes([b]) for b in b'{}();|?"\x00\xff']
WORK = 200
BOUNDS = "--bnd-inbits 1 --bnd-unroll-amnt 3 --bnd-inline-amnt 2".split()
BUDGET = "--rounds 20 --conflicts 1000".split()

TEXTS = [
    """pragma options "--bnd-inbits 2";
int N = 2 * 3 - 1; // a constant
int f(int x, ref int y) {
    int a = -x + N, b;
    bit c = x < 3 && !(y >= a) || x != y;
    for (int i = 0; i < 2; i++) { b += i; y -= 1; }
    while (a > 7) a--;
    if (c) { return b % 4; } else if (a <= 0) return 1 / 2;
    assume a == b ? true : false; /* or not */
    assert x > 1; minimize(x); ;
    return (c ? a : b);
}
""",
    """bit[4] g(bit[4] b, ref int[2] v) {
    bit[2] low = b[0::2];
    int[2][3] m = {{1, 2}, v};
    m[2][low[1]] = v[0];
    v[1] = m[0][1];
    bit[4] r = (b | {1, 0}) ^ ~b & b << 1;
    return r >> v[0];
}
void h() { int[2] w = 0; bit[4] k = 1; k = g(k, w); assert k[2] == 0; }
""",
    """struct S { int v; S n; bit[2] w; }
S made(S s, int x) {
    S t = new S(v = x, n = s);
    t.n = null; t.w[1] = 1;
    if (t.n != null) { t.n.v = 2; t = t.n; }
    return t;
}
int one(int x) implements same { return x * 1; }
int same(int x) { return x; }
harness void main(int x) { S p = made(null, x); S q = p; {| (p | q)(.n)? |} = {| p | q.n |}; }
""",
    """generator int leaf(int x) { return {| x (+ 1 | - x)? | ?? * x |} + ??(2); }
harness void main(int x, bit[2] b) {
    int t = ??; bit[2] h = b ^ ??;
    repeat (2) { t = t + leaf(x); }
    repeat (??(1)) t++;
    minrepeat { t = t + 1; }
    reorder { t = t * 2; t = t - 1; { t = t; } }
    assert t >= x || h[0];
    return;
}
""",
    """adt A { V { int n; A m; } W { } }
int f(A x) {
    switch (x) {
        case V: { x.n = 1; return x.n + f(x.m); }
        case W: { return 0; }
    }
    return ??(1);
}
A g(int n) { A y = new V(n = n, m = null); if (n > 2) y = new W(); return y; }
""",
]


def damages(text):
    """What is done to a text, and what becomes of it."""
    for at in range(len(text) + 1):
        yield f"the first {at} bytes", text[:at]
    for at, byte in enumerate(text):
        yield f"byte {at} left out", text[:at] + text[at + 1 :]
        yield f"byte {at} doubled", text[:at] + text[at : at + 1] + text[at:]
        for other in OTHERS:
            yield f"byte {at} is {other!r}", text[:at] + other + text[at + 1 :]


def run(program, words, text):
    ran = subprocess.run([program, *words], input=text, capture_output=True, env={"SKETCH_EXPLAIN": "0"}, timeout=120)
    return ran.returncode, ran.stderr.decode("latin1").split("\n")[0], ran.stdout.decode("latin1")


def agrees(wanted, status, said, out):
    """Whether a line ends as the reference says: a message, or status 0 with an output."""
    head, body = wanted
    if head == "0":
        return status == 0 and out == body
    if head.split()[0] == "type":
        return status == 12 and out == ""
    if head.split()[0] in ("text", "adt"):
        return said.split()[:2] == head.split()[:2] and out == ""
    return said.split()[:1] == head.split()[:1] and out == ""


def completed(text):
    """The result of `synth` where the reference can try all; nothing where it cannot."""
    try:
        options, _ = cases.bounds(BOUNDS)
        program, bounds = sketch.load(text, **options)
        if cases.work(program, bounds) > WORK:
            return None
        return sketch.synth(text, **options)[0]
    except (RecursionError, sketch.Refuse):
        return None


def first_lines(out):
    """The value of a result, or that there is none. Which of several least completions is written is not promised."""
    return [line for line in out.split("\n") if line.startswith(("//@ value", "//@ none"))]


def judged(program, damaged, is_algebraic, counts):
    """Whether the program ends as it should on a text, and what it said."""
    text = damaged.decode("latin1")
    line = ["lower"] if is_algebraic else ["exec", "none"]
    status, said, out = run(program, line, damaged)
    counts[" ".join(said.split()[:2]) or f"status {status}"] += 1
    if not agrees(cases.computed(" ".join(line), text), status, said, out):
        return False, f"{line}: {status} {said!r} {out[:80]!r}, and not {cases.computed(' '.join(line), text)}"
    if said != "exec NoFunction":
        return status >= 0, said
    status, said, out = run(program, ["synth", *BOUNDS, *BUDGET], damaged)
    counts[f"synth: {said.split(' ')[0] if status >= 10 else status}"] += 1
    wanted = completed(text) if status in (0, 1) else None
    counts["synth: compared"] += wanted is not None
    return status >= 0 and (wanted is None or first_lines(wanted) == first_lines(out)), f"synth: {status} {said!r} {first_lines(out)}, and not {wanted!r}"


def main():
    parser = argparse.ArgumentParser()
    parser.add_argument("program")
    parser.add_argument("--only", type=int)
    parser.add_argument("--every", type=int, default=1)
    given = parser.parse_args()
    counts, tried, wrong = collections.Counter(), 0, 0
    for number, text in enumerate(TEXTS):
        if given.only not in (None, number):
            continue
        for k, (how, damaged) in enumerate(damages(text.encode())):
            if k % given.every:
                continue
            tried += 1
            is_right, said = judged(given.program, damaged, "adt" in text, counts)
            if not is_right:
                wrong += 1
                print(f"text {number}, {how}: {said}", flush=True)
    print("\n".join(f"{said}: {n}" for said, n in sorted(counts.items())))
    print(f"{tried} texts, {wrong} ended otherwise")
    return 1 if wrong else 0


if __name__ == "__main__":
    sys.exit(main())
