"""Times `sketch exec` on long texts of many names and of deep expressions, whole and halved.

    python3 bench/typing.py PROGRAM

Each text ends with a function `main` that is run, so that it is read, typed and expanded. Times are processor times, the
median of five runs.
"""
import resource
import statistics
import subprocess
import sys

MEBIBYTE = 1 << 20
END = "int main() { return 0; }\n"


def filled(row, size):
    """Rows until the text has this size, and then the function that is run."""
    rows, count, total = [], 0, 0
    while True:
        text = row(count)
        if total + len(text) + len(END) > size:
            return "".join(rows) + END
        rows.append(text)
        total += len(text)
        count += 1


def functions(size):
    return filled(lambda i: f"int f{i}(int x) {{ return x + f{max(i - 1, 0)}(x); }}\n", size)


def constants(size):
    return filled(lambda i: f"int N{i} = " + ("1" if i == 0 else f"N{i - 1}") + ";\n", size)


def structs(size):
    return filled(lambda i: f"struct S{i} {{ int a; S{max(i - 1, 0)} b; }}\n", size)


def variables(size):
    """One function of one block with many variables, each of which names the one before."""
    head = "void many(int v) {\n"
    body = filled(lambda i: f"int v{i} = v" + (str(i - 1) if i else "") + ";\n", size - len(head) - 2)
    return head + body[: -len(END)] + "}\n" + END


def fields(size):
    """A struct with many fields, and a record with all of them set."""
    names = []
    total = 100
    while total < size:
        names.append(f"a{len(names)}")
        total += len(f"int {names[-1]}; {names[-1]} = 1, ")
    names.pop()
    members = "".join(f"int {x}; " for x in names)
    settings = ", ".join(f"{x} = 1" for x in names)
    return f"struct S {{ {members}}}\nvoid all() {{ S s = new S({settings}); }}\n{END}"


def deep(levels):
    """Functions of expressions so many levels deep."""
    expression = "x + (" * (levels // 2) + "x" + ")" * (levels // 2)
    return lambda size: filled(lambda i: f"int f{i}(int x) {{ return {expression}; }}\n", size)


TEXTS = [
    ("functions, each of which calls the one before", functions),
    ("constants, each the one before", constants),
    ("structs, each with a field of the one before", structs),
    ("one block of variables, each the one before", variables),
    ("a struct of many fields, and a record with all of them set", fields),
    ("functions of expressions 20 levels deep", deep(20)),
    ("functions of expressions 240 levels deep", deep(240)),
]


def timed(program, text):
    times = []
    for _ in range(5):
        before = resource.getrusage(resource.RUSAGE_CHILDREN)
        ran = subprocess.run([program, "exec", "main"], input=text.encode(), capture_output=True)
        after = resource.getrusage(resource.RUSAGE_CHILDREN)
        times.append(after.ru_utime + after.ru_stime - before.ru_utime - before.ru_stime)
    return statistics.median(times), ran.returncode, ran.stderr.decode().strip()


def main():
    for name, text in TEXTS:
        half = timed(sys.argv[1], text(MEBIBYTE // 2))
        whole = timed(sys.argv[1], text(MEBIBYTE))
        print(f"{name}: half {half[0]:.3f} s, whole {whole[0]:.3f} s, ratio {whole[0] / half[0]:.2f}, ends {whole[1]} {whole[2]}")


main()
