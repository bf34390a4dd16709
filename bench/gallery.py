#!/usr/bin/env python3
"""Takes the time of `sketch synth` on each row of crates/rows_commands/data/examples.txt, and compares what is written.

    gallery.py [--sketch PATH] [--runs N] [--limit SECONDS]

A time is the least of N runs (5 if left out), one after another, in seconds of user time of the whole process, start and
reading included, since other work on the machine makes a run longer alone; a run is cut off after SECONDS (60). The status is 1 where an answer is none
of those of its row."""
import argparse
import pathlib
import re
import sys

from search import TOP, timed

ROWS = TOP / "crates/rows_commands/data/examples.txt"


def rows():
    """The title, the words, the text and the answers, as (status, output), of each row of `synth`."""
    for block in re.split(r"^=== ", ROWS.read_text(), flags=re.M)[1:]:
        head, *parts = re.split(r"^---(.*)\n", block.rstrip("\n") + "\n", flags=re.M)
        title, words = head.split("\n")[:2]
        if words.split()[:1] == ["synth"]:
            yield title, words.split(), parts[1], [(int(mark.split()[-1]), out) for mark, out in zip(parts[2::2], parts[3::2])]


def least(words, limit, runs, text):
    """The status and the output of the first run, and the least of the times; a run that was cut off is not run again."""
    status, out, time = timed(words, limit, text)
    for _ in range(runs - 1 if status is not None else 0):
        time = min(time, timed(words, limit, text)[2])
    return status, out, time


def fits(found, wanted):
    status, out = wanted
    return found[0] == status and (found[1].startswith(out.rstrip("\n")[:-2]) if out.rstrip("\n").endswith("..") else found[1] == out)


def main():
    parser = argparse.ArgumentParser()
    parser.add_argument("--sketch", default=str(TOP / "crates/sketch/out/sketch"))
    parser.add_argument("--runs", type=int, default=5)
    parser.add_argument("--limit", type=int, default=60)
    given, wrong = parser.parse_args(), 0
    if not pathlib.Path(given.sketch).is_file():
        sys.exit(f"gallery: {given.sketch} is not there")
    for title, words, text, answers in rows():
        status, out, time = least([given.sketch, *words], given.limit, given.runs, text)
        fine = any(fits((status, out), wanted) for wanted in answers)
        wrong += not fine
        print(f"{time:7.3f} s  {title}{'' if fine else f'  WRONG: {status}'}", flush=True)
        if not fine:
            print(out)
    print(f"gallery: {wrong} wrong")
    sys.exit(1 if wrong else 0)


if __name__ == "__main__":
    main()
