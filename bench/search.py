#!/usr/bin/env python3
"""Runs `sketch synth`, z3 and cvc5 on the sketches of bench/sketches, and prints how long each takes.

    search.py [--sketch PATH] [--runs N] [--limit SECONDS] [NAME..]

The first two lines of NAME.sk say the words of `synth`, and the status and the value that it has to end with. A
completion is read back, and run by the reference in bench/reference on sample inputs. NAME.smt2 asks the same of the
other solvers, written by hand: its first line says what they have to answer, and each runs on the whole file. Times are
medians of N runs (5 if left out), one after another, in seconds of user time of the whole process; a run is cut off after
SECONDS (60) and then counts as that long. Without `--sketch` the program is crates/sketch/out/sketch; where it is not
there, the others run alone. Solvers that are not installed are left out. The status of this script is 1 where an answer is wrong.
"""

import argparse
import math
import random
import re
import resource
import shutil
import statistics
import subprocess
import sys
from pathlib import Path

TOP = Path(__file__).resolve().parents[1]
SKETCHES = TOP / "bench/sketches"
sys.path.insert(0, str(TOP / "bench/reference"))
import cases  # noqa: E402
import sketch  # noqa: E402

OTHERS = {"z3": ["z3"], "cvc5": ["cvc5", "--incremental"]}
LEAST = 0.01  # shorter times are counted as this, the step of the clocks
SAMPLES = 200


def timed(words, limit, text=None):
    """The status, the output and the user time of a run; a status of None where it was cut off."""
    before = resource.getrusage(resource.RUSAGE_CHILDREN).ru_utime
    cap = lambda: resource.setrlimit(resource.RLIMIT_CPU, (limit, limit + 1))
    done = subprocess.run(words, input=text, capture_output=True, text=True, preexec_fn=cap)
    time = resource.getrusage(resource.RUSAGE_CHILDREN).ru_utime - before
    return (None, done.stdout, float(limit)) if done.returncode < 0 else (done.returncode, done.stdout, max(time, LEAST))


def median(words, limit, runs, text=None):
    """The status and output of the first run, and the median of the times; a run that was cut off is not run again."""
    status, out, time = timed(words, limit, text)
    times = [time]
    while status is not None and len(times) < runs:
        times.append(timed(words, limit, text)[2])
    return status, out, statistics.median(times)


def wanted(text):
    """The words of a sketch, and the status and the value that it has to end with."""
    first, second = text.split("\n")[:2]
    found = re.fullmatch(r"// status (\d)(?: value (\d+))?", second)
    return first.removeprefix("// ").split(), int(found[1]), found[2] and int(found[2])


def sample(ty, b, source):
    if ty[0] == "arr":
        return [sample(ty[1], b, source) for _ in range(ty[2])]
    most = 2 ** b["inbits"] - 1 if ty[0] == "int" else 1
    return source.choice([0, most, source.randint(0, most), source.randint(0, most)])


def faults_of(result, options, value):
    """What is wrong with a result of status 0: it is read back, and run on sample inputs."""
    prog, b = sketch.load(result, **options)
    found = sketch.expand(prog, b)
    if sketch.sites(found, b):
        return "it has holes"
    said = re.search(r"^//@ value (\d+)$", result, re.M)
    if not said or int(said[1]) != value:
        return f"its value is not {value}"
    filled = sketch.fill(found, [])
    functions = {f.name: f for f in filled.funs}
    source = random.Random(1)
    for obligation in sketch.obligations(filled):
        for _ in range(SAMPLES):
            args = [sample(p[1], b, source) for p in functions[obligation[1]].params]
            if sketch.breaks(filled, b, obligation, args):
                return f"it fails on {args}"
            if obligation[0] == "harness":
                end = sketch.run(filled, obligation[1], args, b)
                if end[0] == "done" and end[3] > value:
                    return f"it costs {end[3]} on {args}"
    return None


def ours(program, text, limit, runs):
    """The time of `sketch synth`, and what is wrong with its answer."""
    words, status, value = wanted(text)
    came, out, time = median([program, *words], limit, runs, text)
    if came is None:
        return time, None
    if came != status:
        return time, f"status {came}, and not {status}"
    if status == 1:
        return time, None if out == "//@ none\n" else "it does not write that there is none"
    options, _ = cases.bounds(words[1:])
    return time, faults_of(out, options, value)


def other(words, path, limit, runs):
    """The time of another solver, and what is wrong with its answers; nothing where it was cut off or does not know."""
    came, out, time = median([*words, str(path)], limit, runs)
    answers = " ".join(out.split())
    right = path.read_text().split("\n")[0].removeprefix("; ")
    if came is None or "unknown" in answers:
        return float(limit), None
    return time, None if answers == right else f"it answers {answers}, and not {right}"


def mean(ratios):
    return math.exp(sum(map(math.log, ratios)) / len(ratios)) if ratios else float("nan")


def spelt(time, limit):
    return "-" if time is None else f">{limit}" if time >= limit else f"{time:.2f}"


def main():
    parser = argparse.ArgumentParser()
    parser.add_argument("--sketch", default=str(TOP / "crates/sketch/out/sketch"))
    parser.add_argument("--runs", type=int, default=5)
    parser.add_argument("--limit", type=int, default=60)
    parser.add_argument("names", nargs="*")
    given = parser.parse_args()
    others = {name: words for name, words in OTHERS.items() if shutil.which(name)}
    with_ours = Path(given.sketch).exists()
    names = given.names or sorted(path.stem for path in SKETCHES.glob("*.sk"))
    ratios, faults = {name: [] for name in others}, []
    print(f"{'sketch':20} {'ours s':>8} " + " ".join(f"{name + ' s':>8} {'ratio':>8}" for name in others), flush=True)
    for name in names:
        text = (SKETCHES / f"{name}.sk").read_text()
        time, fault = ours(given.sketch, text, given.limit, given.runs) if with_ours else (None, None)
        if fault:
            faults.append(f"{name}: sketch: {fault}")
        line = f"{name:20} {spelt(time, given.limit):>8}"
        path = SKETCHES / f"{name}.smt2"
        for solver, words in others.items():
            if not path.exists():
                line += f" {'-':>8} {'-':>8}"
                continue
            its, fault = other(words, path, given.limit, given.runs)
            if fault:
                faults.append(f"{name}: {solver}: {fault}")
            ratio = time / its if time is not None else None
            if ratio:
                ratios[solver].append(ratio)
            line += f" {spelt(its, given.limit):>8} {'-' if ratio is None else f'{ratio:.2f}':>8}"
        print(line, flush=True)
    if with_ours:
        print(f"{'mean of ratios':29}" + " ".join(f"{'':>8} {mean(ratios[name]):8.2f}" for name in others))
    print("\n".join(faults) if faults else "each answer is right")
    return 1 if faults else 0


if __name__ == "__main__":
    sys.exit(main())
