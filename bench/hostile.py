#!/usr/bin/env python3
"""Times `check` on certificates that are large, and refused or accepted for what they say, and takes the memory that it holds.

    hostile.py PROGRAM [--only WORD] [--size BYTES]

PROGRAM is the built `sketch`; GNU `time` has to stand in /usr/bin. Inputs have BYTES (67,108,864, as many as `check` reads) or the number of parts that their title says. A run is cut off after 300 seconds. A line gives
the input, how long it is, how the program ended, its user time, the most memory that it held, and that as a multiple of the input."""
import argparse
import os
import resource
import subprocess
import sys
import tempfile

LIMIT, ROOM = 300, 12 << 30
SKETCH = "harness void f(int x) { }\n"
ARRAY = "harness void f(int[4] a) { }\n"
LAYOUT = "harness void f(int x) {\n}\n"
HEAD = "//@ completion\n//@ value 0\n//@ holes\n//@ certificate 2\n"
NAMES = "//@ names 1 2 3 4 5\n"
UPPER = f"//@ upper 0 5 1 1\n{NAMES}//@ c\n//@ l\n"
END = "//@ end\n"


def whole(size, behind="", before=f"{SKETCH}//%%\n{LAYOUT}{HEAD}//@ inputs 0\n"):
    """How many bytes are left of so many."""
    return size - len(before) - len(behind) - 100


def with_upper(part):
    return f"{SKETCH}//%%\n{LAYOUT}{HEAD}//@ inputs 0\n{part}{END}"


def logged(clause, count, last="//@ l\n", formula="//@ c 1\n"):
    """An upper part with so many clauses of a log before the last."""
    return with_upper(f"//@ upper 0 5 {formula.count('//@ c')} {count + 1}\n{NAMES}{formula}{clause * count}{last}")


def scalars(size, count=1000000):
    return f"{SKETCH}//%%\n{LAYOUT}{HEAD}//@ inputs 1\n//@ input 0 {'0,' * (count - 1)}0\n{UPPER}{END}"


def most_scalars(size):
    return scalars(size, whole(size, UPPER + END) // 2)


def unending(size, count=1000000):
    return logged("//@ l 1 2\n", count - 1, "//@ l 1\n")


def unfollowed(size, count=1000000):
    return logged("//@ l 1 2\n", count - 1)


def unfollowed_at_once(size, count=1000000):
    return logged("//@ l -1\n", count - 1)


def short_clauses(size):
    return logged("//@ l 1\n", whole(size) // 8)


def long_clauses(size):
    clause = "//@ l" + " 1 2 3 4 5" * 200 + "\n"
    return logged(clause, whole(size) // len(clause))


def empty_clauses(size):
    clause = "//@ c\n"
    count = whole(size) // len(clause)
    return with_upper(f"//@ upper 0 5 {count} 1\n{NAMES}{clause * count}//@ l\n")


def alike_inputs(size):
    line = "//@ input 0 1\n"
    count = whole(size, UPPER + END) // len(line)
    return f"{SKETCH}//%%\n{LAYOUT}{HEAD}//@ inputs {count}\n{line * count}{UPPER}{END}"


def unlike(size):
    """Lines of inputs of which no two are alike."""
    lines, left, k = [], whole(size) - 500, 0
    while left > 0:
        lines.append(f"//@ input 0 {k % 256},{k // 256 % 256},{k // 65536},0\n")
        left -= len(lines[-1])
        k += 1
    return f"//@ inputs {k}\n{''.join(lines)}//@ upper 0 32 1 1\n//@ names {' '.join(map(str, range(1, 33)))}\n//@ c\n//@ l\n"


def other_inputs(size):
    return f"{ARRAY}//%%\n{LAYOUT.replace('int x', 'int[4] a')}{HEAD}{unlike(size)}{END}"


def paid_inputs(size):
    """The same of a program that pays 1, so that a lower part asks for all of them."""
    program, head = "harness void f(int[4] a) {\n    minimize(1);\n}\n", HEAD.replace("value 0", "value 1")
    return f"{program}//%%\n{program}{head}{unlike(size)}//@ lower 0 1 1\n//@ names\n//@ c\n//@ l\n{END}"


def names(size):
    count = whole(size) // 9
    return with_upper(f"//@ upper 0 {count} 1 1\n//@ names {' '.join(map(str, range(1, count + 1)))}\n//@ c\n//@ l\n")


def variables(count):
    return lambda size: with_upper(f"//@ upper 0 {count} 1 1\n{NAMES}//@ c\n//@ l\n")


def variable(number):
    return lambda size: with_upper(f"//@ upper 0 {number} 2 1\n{NAMES}//@ c\n//@ c 1 {number}\n//@ l\n")


def holes(size):
    return f"{SKETCH}//%%\n{LAYOUT}{HEAD.replace('holes', 'holes' + ' 1' * (whole(size) // 2))}//@ inputs 0\n{UPPER}{END}"


def lines_of_text(size):
    return f"{SKETCH}//%%\n{'int x;' * 10 + chr(10)}{LAYOUT * (whole(size, UPPER + END) // len(LAYOUT) - 5)}{HEAD}//@ inputs 0\n{UPPER}{END}"


def parts(size):
    """Upper parts of obligations that there are not."""
    made, left, k = [], whole(size) - 100, 0
    while left > 0:
        made.append(f"//@ upper {k} 5 1 1\n{NAMES}//@ c\n//@ l\n")
        left -= len(made[-1])
        k += 1
    return f"{SKETCH}//%%\n{LAYOUT}{HEAD}//@ inputs 0\n{''.join(made)}{END}"


def chain(count):
    """A formula of implications in a row, and a log each clause of which follows by all of them."""
    def made(size):
        clauses = "".join(f"//@ c -{k} {k + 1}\n" for k in range(1, count))
        return with_upper(f"//@ upper 0 {2 * count} {count - 1} {count + 1}\n{NAMES}{clauses}{''.join(f'//@ l -1 {count} {count + k}{chr(10)}' for k in range(1, count + 1))}//@ l\n")
    return made


def blanks(more):
    """Blanks behind the line that divides, in an input that is so much longer."""
    return lambda size: "//%%\n" + " " * (size - 5 + more)


CASES = [
    ("as many blanks as are read", [], blanks(0)),
    ("a blank more than is read", [], blanks(1)),
    ("an input of 1,000,000 scalars", [], scalars),
    ("an input of as many scalars as fit", [], most_scalars),
    ("a log of 1,000,000 clauses without the empty one", [], unending),
    ("a log of 1,000,000 clauses whose last does not follow", [], unfollowed),
    ("a log of 1,000,000 clauses whose first does not follow", [], unfollowed_at_once),
    ("clauses of one literal in a log", [], short_clauses),
    ("clauses of 1,000 literals in a log", [], long_clauses),
    ("empty clauses in a formula", [], empty_clauses),
    ("inputs that are alike", [], alike_inputs),
    ("inputs of which no two are alike", ["--bnd-inbits", "8"], other_inputs),
    ("such inputs and a lower part", ["--bnd-inbits", "8"], paid_inputs),
    ("names of a formula", [], names),
    ("1,000,000 variables that no clause has", [], variables(1000000)),
    ("10,000,000 variables that no clause has", [], variables(10000000)),
    ("67,108,864 variables that no clause has", [], variables(67108864)),
    ("4,294,967,295 variables that no clause has", [], variables(4294967295)),
    ("the variable 65,536 in a clause", [], variable(65536)),
    ("the variable 67,108,864 in a clause", [], variable(67108864)),
    ("the variable 4,294,967,295 in a clause", [], variable(4294967295)),
    ("holes that the sketch has not", [], holes),
    ("lines of another program", [], lines_of_text),
    ("upper parts that are too many", [], parts),
    ("a chain of 1,000 implications, each clause of the log by all", [], chain(1000)),
    ("a chain of 4,000 implications, each clause of the log by all", [], chain(4000)),
    ("a chain of 16,000 implications, each clause of the log by all", [], chain(16000)),
]


def run(program, words, text):
    """How the program ends, its user time, and the most memory that it held, in MiB. GNU `time` takes both: of a process that this one makes, the system counts this one's memory too."""
    def cap():
        resource.setrlimit(resource.RLIMIT_CPU, (LIMIT, LIMIT + 1))
        resource.setrlimit(resource.RLIMIT_AS, (ROOM, ROOM))

    with tempfile.TemporaryFile() as file, tempfile.NamedTemporaryFile("r") as taken:
        file.write(text)
        file.seek(0)
        line = ["/usr/bin/time", "-o", taken.name, "-f", "%U %M", program, "check", *words]
        asked = subprocess.run(line, stdin=file, stdout=subprocess.PIPE, stderr=subprocess.STDOUT, preexec_fn=cap, env={"SKETCH_EXPLAIN": "0"}, check=False)
        *ended, used = taken.read().splitlines()
    if not ended or asked.returncode < 128:
        ended = asked.stdout.decode("latin1").splitlines()
    time, memory = used.split()
    return ended[0], float(time), int(memory) / 1024


def main():
    parser = argparse.ArgumentParser()
    parser.add_argument("program")
    parser.add_argument("--only", default="")
    parser.add_argument("--size", type=int, default=67108864)
    given = parser.parse_args()
    for title, words, make in CASES:
        if given.only in title:
            text = make(given.size).encode()
            ended, time, memory = run(os.path.abspath(given.program), words, text)
            print(f"{title} | {len(text):,} bytes | {ended} | {time:.2f} s | {memory:.0f} MiB, {memory * (1 << 20) / len(text):.1f}", flush=True)


if __name__ == "__main__":
    sys.exit(main())
