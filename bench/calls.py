#!/usr/bin/env python3
"""Times many calls of one solver, beside a solver of its own for each call.

    python3 bench/calls.py FOLDER [--vars N] [--clauses N] [--seed N]

FOLDER is made, if it is not there: a copy of the crates with one more, `calls_bench`, whose source is bench/calls/main.txt (a program of the gate
it is not, so it stands as a text). `rt run` proves it and builds it with LLVM, after the crates that it stands on. Then it is
run, each time in a process of its own, with one solver for 0 to 1,000 calls, and with a solver for each of up to 300 calls:
6,000 random clauses of three literals over 2,000 variables, and one more before each call. The table gives the user time of
each process in seconds, the processor time of a call among the last hundred in microseconds, the most memory that the process
held in megabytes, and how many clauses its last solver had learnt; with no calls a process makes the clauses alone.
"""
import argparse
import os
import re
import shutil
import subprocess
import sys
import tempfile
from dataclasses import dataclass

HERE = os.path.dirname(os.path.abspath(__file__))
TOP = os.path.dirname(HERE)
STEP = 100  # the program writes a line after so many calls
CALLS = {"kept": (0, 100, 200, 300, 1000), "anew": (0, 100, 200, 300)}


@dataclass
class Run:
    """What a process took: user time in seconds, microseconds a call among the last, and memory in megabytes; and how many
    clauses its last solver had learnt."""

    time: float
    last: float | None
    memory: float
    learnt: int

    def shown(self):
        last = "" if self.last is None else f"{self.last:.0f}"
        return f"{self.time:9.2f} {last:>9} {self.memory:9.1f} {self.learnt:9}"


def make_copy(folder):
    """Copies the crates, and adds the bench to them, if that was not done before. The folder of the bench."""
    bench = os.path.join(folder, "crates", "calls_bench")
    if os.path.exists(bench):
        return bench
    kept = shutil.ignore_patterns("out")
    shutil.copytree(os.path.join(TOP, "crates"), os.path.join(folder, "crates"), ignore=kept)
    shutil.copy(os.path.join(TOP, "HANDLES"), folder)
    shutil.copy(os.path.join(TOP, "crates.txt"), folder)
    subprocess.run(["rt", "new", "crates/calls_bench", "start_io"], cwd=folder, check=True, capture_output=True)
    with open(os.path.join(folder, "crates.txt"), "a", encoding="utf-8") as crates:
        crates.write("calls_bench: sk_base sk_clause sk_sat\n")
    # the template's files are of no use
    shutil.rmtree(bench)
    os.makedirs(os.path.join(bench, "src"))
    shutil.copy(os.path.join(HERE, "calls", "main.txt"), os.path.join(bench, "src", "main.rt"))
    for function in ("fill", "solver_of", "call_kept", "call_anew"):
        os.makedirs(os.path.join(bench, "proofs", function))
        given = os.path.join(HERE, "calls", f"{function}.txt")
        shutil.copy(given, os.path.join(bench, "proofs", function, "Invariants.antt"))
    return bench


def figures(output, calls):
    """Of each hundred calls the nanoseconds so far, and the clauses that were learnt at the end; each answer must be values,
    the last of which meet the clauses."""
    lines, found, _ = output.partition("met true\n" if calls else "met false\n")
    assert found, "the last answer was no values that meet the clauses"
    spent, learnt = [0], 0
    for line in lines.splitlines():
        count, time, sat, learnt = map(int, line.split())
        assert count == sat, f"an answer among {count} was no values"
        spent.append(time)
    return spent, learnt


def run(program, kind, calls, given):
    words = [program, kind, given.vars, given.clauses, calls, given.seed]
    with tempfile.TemporaryFile("w+") as out:
        child = subprocess.Popen([str(word) for word in words], stdout=out)
        _, status, used = os.wait4(child.pid, 0)
        child.returncode = os.waitstatus_to_exitcode(status)
        assert child.returncode == 0, words
        out.seek(0)
        text = out.read()
    spent, learnt = figures(text, calls)
    last = (spent[-1] - spent[-2]) / STEP / 1000 if calls else None
    # the most memory that `wait4` tells of counts this program too, from which the process was made
    most = re.search(r"^VmHWM:\s+(\d+) kB$", text, re.MULTILINE)
    return Run(used.ru_utime, last, int(most.group(1)) * 1024 / 1e6, learnt)


def main():
    parser = argparse.ArgumentParser()
    parser.add_argument("folder")
    parser.add_argument("--vars", type=int, default=2000)
    parser.add_argument("--clauses", type=int, default=6000)
    parser.add_argument("--seed", type=int, default=1)
    given = parser.parse_args()
    bench = make_copy(given.folder)
    built = subprocess.run(["rt", "run"], cwd=bench, capture_output=True, text=True)
    if built.returncode != 0:
        sys.exit(built.stdout[-3000:] + built.stderr[-3000:])
    program = os.path.join(bench, "out", "calls_bench")
    runs = {(kind, calls): run(program, kind, calls, given) for kind in CALLS for calls in CALLS[kind]}
    print("load", os.getloadavg()[0])
    print(f"{'calls':>6}", *(f"{head:>9}" for kind in CALLS for head in (f"{kind} s", "us/call", "MB", "learnt")))
    for calls in CALLS["kept"]:
        shown = [runs[kind, calls].shown() for kind in CALLS if (kind, calls) in runs]
        print(f"{calls:6}", *shown)


main()
