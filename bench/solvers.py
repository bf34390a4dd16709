#!/usr/bin/env python3
"""Runs the proved solver and others on each formula of a folder, one after another, and prints times and ratios.

    solvers.py DIMACS FOLDER [--seconds N] [--only FAMILY] [SOLVER ..]

DIMACS is the program of the crate `dimacs`, FOLDER has what formulas.py wrote, a SOLVER is minisat, cadical or picosat
(minisat and cadical if left out). Times are user times in seconds, of the whole process. Each run is cut off after N
seconds (20 if left out) and then counts as that long. The solvers must agree; each log of the proved solver is checked by
`DIMACS FILE --check LOG`, and the most memory that the check held is set beside the size of the log.
"""

import argparse
import math
import os
import re
import resource
import subprocess
import tempfile
from dataclasses import dataclass
from pathlib import Path

STATUS = {10: "sat", 20: "unsat"}
LEAST = 0.01  # shorter times are counted as this, the step of the clocks
SOME = 1000  # conflicts a second are compared where both solvers met more
LONG = 1 << 20  # memory is set beside the log where that has more bytes

# Of each solver its words, and where it tells its conflicts.
SOLVERS = {
    "minisat": (["minisat", "-verb=1"], r"conflicts\s*: (\d+)"),
    "cadical": (["cadical", "-n"], r"c conflicts:\s+(\d+)"),
    "picosat": (["picosat", "-v", "-n"], r"c (\d+) conflicts"),
}


@dataclass
class Run:
    """What a run came to: its answer (none where it was cut off), user time, conflicts, and peak memory in bytes."""

    answer: str | None
    time: float
    conflicts: int
    memory: int
    out: str


def run(words, pattern, limit):
    cap = lambda: resource.setrlimit(resource.RLIMIT_CPU, (limit, limit + 1))
    with tempfile.TemporaryFile("w+") as out:
        child = subprocess.Popen(words, stdout=out, stderr=subprocess.DEVNULL, preexec_fn=cap)
        _, status, used = os.wait4(child.pid, 0)
        child.returncode = code = os.waitstatus_to_exitcode(status)
        out.seek(0)
        text = out.read()
    match = re.search(pattern, text)
    time = limit if code < 0 else max(used.ru_utime, LEAST)
    return Run(STATUS.get(code), time, int(match.group(1)) if match else 0, used.ru_maxrss * 1024, text)


@dataclass
class Row:
    """A formula, the runs of the solvers, and the check of the log where there is one."""

    name: str
    answer: str
    ours: Run
    others: dict
    check: Run | None
    log: int

    def family(self):
        kind = self.name.split("-")[0]
        return f"{kind} {self.answer}" if kind.startswith("random") else kind

    def best(self):
        return min(r.time for r in self.others.values())


def row_of(dimacs, path, solvers, limit):
    with tempfile.TemporaryDirectory() as place:
        log = os.path.join(place, "log")
        ours = run([dimacs, path, "--log", log], r"c (\d+) clauses learnt", limit)
        others = {s: run(SOLVERS[s][0] + [path], SOLVERS[s][1], limit) for s in solvers}
        answers = {r.answer for r in [ours, *others.values()] if r.answer}
        assert len(answers) <= 1, f"{path}: the solvers do not agree"
        check, size = None, 0
        if ours.answer == "unsat":
            size = os.path.getsize(log)
            check = run([dimacs, path, "--check", log], "(?!)", limit)
            assert "s VERIFIED" in check.out or check.time == limit, f"{path}: log refused"
    return Row(Path(path).stem, next(iter(answers), "none"), ours, others, check, size)


def mean(ratios):
    """The geometric mean."""
    ratios = list(ratios)
    return math.exp(sum(map(math.log, ratios)) / len(ratios)) if ratios else float("nan")


def speeds(rows, solver):
    """Conflicts a second beside those of a solver."""
    for r in rows:
        other = r.others[solver]
        if r.ours.answer and other.answer and min(r.ours.conflicts, other.conflicts) > SOME:
            yield (r.ours.conflicts / r.ours.time) / (other.conflicts / other.time)


def summary(rows, solvers):
    """A line of ratios for each family, and for all."""
    heads = [f"/{s}" for s in solvers] + ["/better"] + [f"speed/{s}" for s in solvers] + ["check", "worst", "memory"]
    print(f"{'family':16} {'runs':>4} {'cut':>4} {'ours s':>8}", *(f"{h:>14}" for h in heads))
    for name in sorted({r.family() for r in rows}) + ["all"]:
        some = [r for r in rows if name in ("all", r.family())]
        ratios = [mean(r.ours.time / r.others[s].time for r in some) for s in solvers]
        ratios.append(mean(r.ours.time / r.best() for r in some))
        ratios += [mean(speeds(some, s)) for s in solvers]
        checked = [r for r in some if r.check]
        ratios.append(sum(r.check.time for r in checked) / max(sum(r.ours.time for r in checked), LEAST))
        ratios.append(max((r.check.time / r.ours.time for r in checked), default=float("nan")))
        ratios.append(max((r.check.memory / r.log for r in checked if r.log > LONG), default=float("nan")))
        cut = sum(r.ours.answer is None for r in some)
        total = sum(r.ours.time for r in some)
        print(f"{name:16} {len(some):4} {cut:4} {total:8.2f}", *(f"{x:14.2f}" for x in ratios))


def main():
    parser = argparse.ArgumentParser()
    parser.add_argument("dimacs")
    parser.add_argument("folder", type=Path)
    parser.add_argument("solvers", nargs="*")
    parser.add_argument("--seconds", type=int, default=20)
    parser.add_argument("--only", default="")
    given = parser.parse_args()
    solvers = given.solvers or ["minisat", "cadical"]
    rows = []
    print("load before:", os.getloadavg())
    heads = ["ours s", "learnt"] + [h for s in solvers for h in (s, "conflicts")] + ["check s", "log MB", "check MB"]
    print(f"{'formula':26} {'answer':6}", *(f"{h:>9}" for h in heads))
    for path in sorted(given.folder.glob(f"{given.only}*.cnf")):
        r = row_of(os.path.abspath(given.dimacs), str(path), solvers, given.seconds)
        rows.append(r)
        runs = [r.ours, *(r.others[s] for s in solvers)]
        shown = [f"{x:>9}" for each in runs for x in (f"{each.time:.2f}", each.conflicts)]
        if r.check:
            shown += [f"{x:9.2f}" for x in (r.check.time, r.log / 1e6, r.check.memory / 1e6)]
        print(f"{r.name:26} {r.answer:6}", *shown, flush=True)
    print("load after:", os.getloadavg())
    print("\nuser times beside those of others (geometric means), conflicts a second beside theirs, checking beside solving")
    print("(of all time, and the worst), and the memory of checking beside the log (the worst of the longer logs):\n")
    summary(rows, solvers)


main()
