#!/usr/bin/env python3
"""Sees that `sketch_check` ends as `sketch check` does, and measures both.

    small_checker.py same PROGRAM CHECKER COUNT [SEED]     puts certificates, and COUNT mutants of them, to both
    small_checker.py sizes PROGRAM CHECKER                 bytes of each, the crates and lines that each is built of, and its start
    small_checker.py times PROGRAM CHECKER                 the time of each on the certificates of bench/sketches and examples/

PROGRAM is the built `sketch`, CHECKER the built `sketch_check`. The certificates are those of `mutants.py`, which changes them; here
status, standard output and standard error of the two are compared, byte by byte. The status is 1 where they differ. Lines are those of
src/ that are neither empty nor comments, nor contracts; a start is the least time of 200 runs on the empty input."""
import collections
import pathlib
import random
import re
import resource
import statistics
import subprocess
import sys
import time

TOP = pathlib.Path(__file__).resolve().parents[1]
sys.path[:0] = [str(TOP / "bench")]
import mutants  # noqa: E402

LIMIT = 60


def ended(words, text):
    """Status, output and errors of a run; none where it was cut off."""
    try:
        ran = subprocess.run(words, input=text, capture_output=True, timeout=LIMIT, env={"SKETCH_EXPLAIN": "0"})
    except subprocess.TimeoutExpired:
        return None
    return ran.returncode, ran.stdout, ran.stderr


def compared(program, checker, one, text, counts):
    """Whether both end in one way on a certificate."""
    given = one.given(text)
    first, second = ended([program, "check", *one.words], given), ended([checker, *one.words], given)
    if first is None or second is None:
        counts["cut off"] += 1
        return True
    counts[(first[1] or first[2]).decode("latin1").split("\n")[0].rsplit(" ", 1)[0] if first[0] > 9 else first[1].decode().strip()] += 1
    if first != second:
        print(f"{one.name}: check {' '.join(one.words)}: {first} and {second}")
        pathlib.Path("small_checker-found").write_bytes(given)
    return first == second


def same(program, checker, count, seed="1"):
    counts, found = collections.Counter(), list(mutants.certified(program, LIMIT))
    done = all([compared(program, checker, one, one.text, counts) for one in found])
    small = [one for one in found if len(one.text) <= 300000]
    for number in range(int(count)):
        source = random.Random(f"{seed} {number}")
        one = source.choice(small)
        done = compared(program, checker, one, mutants.mutated(source, one, small), counts) and done
    print("\n".join(f"{said}: {n}" for said, n in sorted(counts.items())))
    print("both end alike" if done else "they differ")
    return 0 if done else 1


def direct():
    lines = (TOP / "crates.txt").read_text().splitlines()
    return {line.split(":")[0].split()[0]: line.partition(":")[2].split() for line in lines if line.strip() and not line.startswith("#")}


def built_of(name, on):
    """A program's crates of this repository, itself among them."""
    found, left = set(), [name]
    while left:
        it = left.pop()
        if it in on and it not in found:
            found.add(it)
            left += on[it]
    return found


def lines_of(name):
    """How many lines of code a crate has, and how many of contracts beside them."""
    code = contracts = 0
    for path in sorted((TOP / "crates" / name / "src").glob("**/*.rt")):
        if path.name == "tests.rt":
            continue
        for line in path.read_text().splitlines():
            line = line.strip()
            if re.match(r"(requires|ensures|ghost|#\[tactic|#!\[tactic|decreases)\b", line):
                contracts += 1
            elif line and not line.startswith("//"):
                code += 1
    return code, contracts


def start(words):
    times = []
    for _ in range(200):
        began = time.perf_counter()
        subprocess.run(words, stdin=subprocess.DEVNULL, stdout=subprocess.DEVNULL, stderr=subprocess.DEVNULL, check=False)
        times.append(time.perf_counter() - began)
    return min(times)


def sizes(program, checker):
    on = direct()
    for name, path, words in (("sketch", program, ["check"]), ("sketch_check", checker, [])):
        crates = built_of(name, on)
        counted = [lines_of(it) for it in crates]
        print(f"{name}: {pathlib.Path(path).stat().st_size} bytes, {len(crates)} crates, {sum(a for a, _ in counted)} lines of code, {sum(b for _, b in counted)} of contracts, start {start([path, *words]) * 1000:.2f} ms")
    return 0


def user_time(words, text):
    before = resource.getrusage(resource.RUSAGE_CHILDREN).ru_utime
    subprocess.run(words, input=text, capture_output=True, check=False)
    return resource.getrusage(resource.RUSAGE_CHILDREN).ru_utime - before


def times(program, checker):
    ratios, most = [], ("", 0.0, 0.0)
    for one in mutants.certified(program, LIMIT):
        if not one.name.endswith(".sk"):
            continue
        given = one.given(one.text)
        a, b = (min(user_time(words, given) for _ in range(3)) for words in ([program, "check", *one.words], [checker, *one.words]))
        most = max(most, (one.name, a, b), key=lambda it: it[2])
        if a >= 0.02:
            ratios.append(b / a)
    print(f"{len(ratios)} of 0.02 s or more: {statistics.geometric_mean(ratios):.2f} of the time of check; the longest {most[0]}: {most[1]:.2f} and {most[2]:.2f} s")
    return 0


if __name__ == "__main__":
    sys.exit({"same": same, "sizes": sizes, "times": times}[sys.argv[1]](*sys.argv[2:]))
