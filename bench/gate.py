#!/usr/bin/env python3
"""What the gate takes, crate by crate. For development only: no verdict rests on it.

  gate.py run LOG [NAME..]    runs `rt ci` (of these crates) as `.ci/run` does, and writes its lines to LOG, each with the time, and what each
                              process of the prover took when it has ended: a line `@ CRATE KIND SECONDS FROM TO`, in processor seconds and seconds of the
                              run; KIND is proof, tests, edits or build. Ends with the status of `rt ci`
  gate.py table LOG..         writes the table of docs/PERFORMANCE.md (between its two marks) from such logs. What a run kept from an
                              earlier one is in the log of that one: of two logs that name a crate's proof the last counts

A crate is marked where it lies on the longest path: the chain of crates, each on the one before it, whose proofs take longest together."""
import collections
import os
import pathlib
import re
import subprocess
import sys
import threading
import time

TOP = pathlib.Path(__file__).resolve().parents[1]
PAGE, BEGIN, END = TOP / "docs/PERFORMANCE.md", "<!-- the gate: written by bench/gate.py -->", "<!-- end of the gate -->"
TICK, PAUSE = os.sysconf("SC_CLK_TCK"), 0.3
KINDS = ("proof", "tests", "edits", "build")


def text_of(path):
    try:
        with open(path, "rb") as it:
            return it.read().decode(errors="replace")
    except OSError:
        return ""


def below(pid):
    """The process and all that it started."""
    found, left = [], [str(pid)]
    while left:
        found.append(left.pop())
        try:
            tasks = os.listdir(f"/proc/{found[-1]}/task")
        except OSError:
            continue
        left += [it for task in tasks for it in text_of(f"/proc/{found[-1]}/task/{task}/children").split()]
    return found


def kind_of(words, folder, name):
    """What a process of the prover does for the crate: a library is proved where it is built, and an edit is tried on a copy elsewhere."""
    if len(words) > 1 and words[1] != "check" and "src/lib.rt" not in words:
        return "build"
    if not folder.endswith(f"/crates/{name}"):
        return "edits"
    return "tests" if "--test" in words else "proof"


class Sampler(threading.Thread):
    """Sees what each process of the prover takes, and writes it down when it has ended."""

    def __init__(self, pid, began, write):
        super().__init__(daemon=True)
        self.pid, self.began, self.write, self.seen, self.goes_on = pid, began, write, {}, True

    def run(self):
        while self.goes_on:
            self.look()
            time.sleep(PAUSE)
        self.tell(set(self.seen))

    def tell(self, ended):
        for key in ended:
            name, kind, seconds, first, last = self.seen.pop(key)
            self.write(f"@ {name} {kind} {seconds:.1f} {first:.0f} {last:.0f}\n")

    def look(self):
        there = set()
        for pid in below(self.pid):
            fields = text_of(f"/proc/{pid}/stat").rpartition(")")[2].split()
            if len(fields) < 20:
                continue
            key, now = (pid, fields[19]), time.time() - self.began
            there.add(key)
            if key not in self.seen:
                words = text_of(f"/proc/{pid}/cmdline").split("\0")
                name = next((b for a, b in zip(words, words[1:]) if a == "--crate-name"), None)
                if name is None:
                    continue
                try:
                    folder = os.readlink(f"/proc/{pid}/cwd")
                except OSError:
                    continue
                self.seen[key] = [name, kind_of(words, folder, name), 0.0, now, now]
            self.seen[key][2] = (int(fields[11]) + int(fields[12])) / TICK
            self.seen[key][4] = now
        self.tell(set(self.seen) - there)


def run(log, names):
    began = time.time()
    with open(log, "w", encoding="utf-8") as out:
        there = {"RT_JOBS": str(len(os.sched_getaffinity(0))), **os.environ}
        process = subprocess.Popen(["rt", "ci", *names], cwd=TOP, env=there, stdout=subprocess.PIPE, stderr=subprocess.STDOUT, text=True, errors="replace")
        turn = threading.Lock()

        def write(line):
            with turn:
                out.write(line)
                out.flush()

        sampler = Sampler(process.pid, began, write)
        sampler.start()
        for line in process.stdout:
            write(f"{time.strftime('%H:%M:%S')} {time.time() - began:7.0f} {line}")
        status = process.wait()
        sampler.goes_on = False
        sampler.join()
        write(f"{time.strftime('%H:%M:%S')} {time.time() - began:7.0f} status {status}\n")
    return status


def crates():
    """Each crate with the crates of the repository that it stands on, in the order of crates.txt."""
    found = {}
    for line in (TOP / "crates.txt").read_text().splitlines():
        name, _, on = line.partition("#")[0].partition(":")
        if name.strip():
            found[name.split()[0]] = on.split()
    return {name: [it for it in on if it in found] for name, on in found.items()}


def figures(logs):
    """Processor seconds by crate and kind, and the seconds that each log took."""
    took, walls = collections.defaultdict(dict), []
    for log in logs:
        of_log, last = collections.defaultdict(float), 0
        for line in text_of(log).splitlines():
            told = re.fullmatch(r"@ (\S+) (\S+) ([\d.]+) \d+ \d+", line)
            if told:
                of_log[told[1], told[2]] += float(told[3])
            stamp = re.match(r"\d\d:\d\d:\d\d +(\d+) ", line)
            last = int(stamp[1]) if stamp else last
        for (name, kind), seconds in of_log.items():
            took[name][kind] = seconds
        walls.append(last)
    return took, walls


def longest(on, took):
    """The crates of the chain whose proofs take longest, lowest first."""
    best = {}

    def of(name):
        if name not in best:
            under = max((of(it) for it in on[name]), default=(0.0, []))
            best[name] = (under[0] + took.get(name, {}).get("proof", 0.0), [*under[1], name])
        return best[name]

    return max((of(it) for it in on), default=(0.0, []))


def table(logs):
    on, (took, walls) = crates(), figures(logs)
    length, path = longest(on, took)
    rows = sorted((it for it in on if took.get(it)), key=lambda it: -sum(took[it].values()))
    lacking = [it for it in on if "proof" not in took.get(it, {})]
    total = {kind: sum(took.get(it, {}).get(kind, 0.0) for it in on) for kind in KINDS}
    whole = sum(total.values())
    lines = [
        "| crate | proof | tests | edits | builds | on the longest path |",
        "|---|---|---|---|---|---|",
        *(f"| `{it}` | {' | '.join(f'{took[it][kind]:.0f}' if took.get(it, {}).get(kind, 0) >= 0.5 else '' for kind in KINDS)} | {'yes' if it in path else ''} |" for it in rows),
        f"| these {len(rows)} | {' | '.join(f'{total[kind]:.0f}' for kind in KINDS)} | {length:.0f} |",
        "",
        f"Together {whole / 60:.0f} processor minutes, in {' and '.join(f'{it / 60:.0f}' for it in walls)} minutes of wall.",
        *([f"The proofs of {len(lacking)} crates are in none of these logs: {', '.join(f'`{it}`' for it in lacking)}."] if lacking else []),
    ]
    page = PAGE.read_text()
    head, _, rest = page.partition(BEGIN)
    tail = rest.partition(END)[2]
    PAGE.write_text(f"{head}{BEGIN}\n" + "\n".join(lines) + f"\n{END}{tail}")
    print(f"{len(on)} crates, {whole / 60:.0f} processor minutes; the longest path takes {length / 60:.0f}: {' '.join(path)}")
    return 0


def main(verb="", *words):
    if verb == "run" and words:
        return run(words[0], words[1:])
    if verb == "table" and words:
        return table(words)
    print(__doc__)
    return 2


if __name__ == "__main__":
    sys.exit(main(*sys.argv[1:]))
