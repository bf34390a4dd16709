#!/usr/bin/env python3
"""Has checkers and solvers by others judge certificates of the bench.

    other_checkers.py PROGRAM [COUNT] [--limit SECONDS] [--folder FOLDER]

PROGRAM is the built `sketch`. It certifies the sketches of bench/sketches, examples/ and crates/rows_commands until COUNT (50)
certificates are there; each part is written by bench/certificate_parts.py. Of each part's formula cadical and minisat say whether some
values meet it: none do. bench/reference/logs.py follows its log, and so does drat-trim where it is installed. A run is cut off
after SECONDS (60). The script prints for each part how large it is and what each says, and ends with status 1 where one of them
says otherwise; solvers that are not installed are left out.
"""
import argparse
import collections
import pathlib
import shutil
import subprocess
import sys
import tempfile

TOP = pathlib.Path(__file__).resolve().parents[1]
sys.path[:0] = [str(TOP / "bench/reference"), str(TOP / "bench")]
import certificate_parts  # noqa: E402
import mutants  # noqa: E402

UNMET = 20
SOLVERS = {"cadical": ["cadical", "-q", "-n"], "minisat": ["minisat", "-verb=0"]}
LOGS = str(TOP / "bench/reference/logs.py")


def status_of(words, limit):
    try:
        return subprocess.run(words, stdout=subprocess.DEVNULL, stderr=subprocess.DEVNULL, timeout=limit).returncode
    except subprocess.TimeoutExpired:
        return None


def said_of(formula, proof, limit):
    """What each solver and each checker says of a part: whether it is right, or none where the run was cut off."""
    for name, words in SOLVERS.items():
        if shutil.which(name):
            status = status_of([*words, formula], limit)
            yield name, None if status is None else status == UNMET
    status = status_of([sys.executable, LOGS, formula, proof], limit)
    yield "logs.py", None if status is None else status == 0
    if shutil.which("drat-trim"):
        status = status_of(["drat-trim", formula, proof, "-f"], limit)
        yield "drat-trim", None if status is None else status == 0


def size_of(path):
    """The number of lines of a formula or of a log."""
    with open(path, "rb") as file:
        return sum(1 for _ in file)


def main():
    parser = argparse.ArgumentParser()
    parser.add_argument("program")
    parser.add_argument("count", nargs="?", type=int, default=50)
    parser.add_argument("--limit", type=float, default=60)
    parser.add_argument("--folder")
    given = parser.parse_args()
    counts, taken, is_right = collections.Counter(), 0, True
    with tempfile.TemporaryDirectory() as made:
        for one in mutants.certified(given.program, given.limit):
            folder = pathlib.Path(given.folder or made) / str(taken)
            for name in certificate_parts.written(one.text, folder):
                formula, proof = str(folder / f"{name}.cnf"), str(folder / f"{name}.drat")
                said = dict(said_of(formula, proof, given.limit))
                for who, right in said.items():
                    counts[f"{who}: {'cut off' if right is None else 'right' if right else 'OTHERWISE'}"] += 1
                is_right = is_right and False not in said.values()
                words = ", ".join(f"{who} {'-' if right is None else 'yes' if right else 'NO'}" for who, right in said.items())
                print(f"{one.name}: {name}: {size_of(formula) - 2} clauses, a log of {size_of(proof)}: {words}", flush=True)
                counts["parts"] += 1
            taken += 1
            if taken == given.count:
                break
    print(f"certificates: {taken}")
    print("\n".join(f"{name}: {n}" for name, n in sorted(counts.items())))
    return 0 if is_right else 1


if __name__ == "__main__":
    sys.exit(main())
