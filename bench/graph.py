#!/usr/bin/env python3
"""Times the graph of expressions and its simplifier beside the same algorithms in Rust.

    python3 bench/graph.py FOLDER

FOLDER is made: a copy of the crates with one more, `graph_bench`, whose source is bench/graph/main.txt (a program of the gate
it is not, so it stands as a text). `rt run` proves it, builds it with LLVM and runs it; `rustc -O` builds bench/graph/main.rs,
which is run right after. Both write lines `STEP NODES NANOSECONDS`. The table gives the median of each step in nanoseconds a
node, and its ratio to Rust's.
"""
import os
import shutil
import statistics
import subprocess
import sys

HERE = os.path.dirname(os.path.abspath(__file__))
TOP = os.path.dirname(HERE)


def make_copy(folder):
    """Copies the crates, and adds the bench to them."""
    kept = shutil.ignore_patterns("out")
    shutil.copytree(os.path.join(TOP, "crates"), os.path.join(folder, "crates"), ignore=kept)
    shutil.copy(os.path.join(TOP, "HANDLES"), folder)
    shutil.copy(os.path.join(TOP, "crates.txt"), folder)
    bench = os.path.join(folder, "crates", "graph_bench")
    subprocess.run(["rt", "new", "crates/graph_bench", "start_io"], cwd=folder, check=True, capture_output=True)
    with open(os.path.join(folder, "crates.txt"), "a", encoding="utf-8") as crates:
        crates.write("graph_bench: sk_base sk_dag sk_simplify\n")
    # the template's files are of no use
    shutil.rmtree(bench)
    os.makedirs(os.path.join(bench, "src"))
    shutil.copy(os.path.join(HERE, "graph", "main.txt"), os.path.join(bench, "src", "main.rt"))
    for loop, function in (("chain.txt", "chain"), ("short.txt", "time_short")):
        os.makedirs(os.path.join(bench, "proofs", function))
        shutil.copy(os.path.join(HERE, "graph", loop), os.path.join(bench, "proofs", function, "Invariants.antt"))
    return bench


def figures(output):
    """The times of each step by the number of nodes."""
    found = {}
    for line in output.splitlines():
        words = line.split()
        if len(words) == 3 and words[0] != "#":
            try:
                found.setdefault((words[0], int(words[1])), []).append(int(words[2]))
            except ValueError:
                pass
    return found


def main():
    folder = sys.argv[1]
    bench = make_copy(folder)
    built = subprocess.run(["rt", "run"], cwd=bench, capture_output=True, text=True)
    if built.returncode != 0:
        sys.exit(built.stdout[-3000:] + built.stderr[-3000:])
    rust = os.path.join(folder, "graph_rust")
    subprocess.run(["rustc", "--edition", "2024", "-O", "-o", rust, os.path.join(HERE, "graph", "main.rs")], check=True)
    ours = figures(subprocess.run([os.path.join(bench, "out", "graph_bench")], capture_output=True, text=True, check=True).stdout)
    theirs = figures(subprocess.run([rust], capture_output=True, text=True, check=True).stdout)
    print("load", open("/proc/loadavg", encoding="utf-8").read().split()[0])
    print("step nodes ns-a-node ratio-to-rust")
    for step, nodes in sorted(ours):
        mine = statistics.median(ours[step, nodes])
        other = statistics.median(theirs[step, nodes])
        print(step, nodes, round(mine / nodes, 1), round(mine / other, 2))


main()
