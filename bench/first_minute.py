#!/usr/bin/env python3
"""Measures what README.md says of the first minute: what it takes to try the program, what of that is the program's, and what it takes to build it.

    first_minute.py try [N [WORD]]                   `rt try` of `sketch`, of `sketch_check`, and of a program of the kit that does next to nothing, N times each (2), or of
                                                     those in whose line the word stands
    first_minute.py linked [SKETCH SKETCH_CHECK]     what the two are built of, and the bytes of the built ones
    first_minute.py run                              `rt run` of `sketch` where nothing is proved yet: an hour and more of all processors

It works on a clone of the last commit in a temporary folder, so no `out/` of this checkout plays a part. Of each run it prints the seconds of wall, those of a
processor (of all processes together), the most memory of one process, and how it ended. A second run of a line shows whether anything is kept. What a line takes more
than the kit's program is the program's, and what it takes more than `--version` is the search's."""
import pathlib
import resource
import subprocess
import sys
import tempfile
import time

TOP = pathlib.Path(__file__).resolve().parents[1]
# What is tried: the crate, the words, and the text, of files of examples/.
LINES = [
    ("sketch", "synth", ["doubled.sk"]),
    ("sketch", "synth", ["turned_list.sk"]),
    ("sketch", "--version", []),
    ("sketch_check", "", ["climbed.sk", "climbed.cert"]),
]


def clone(folder):
    subprocess.run(["git", "clone", "-q", TOP, f"{folder}/clone"], check=True)
    return pathlib.Path(folder) / "clone"


def timed(title, words, where, text=b""):
    """Runs a line, prints what it took, and answers how it ended."""
    before, began = resource.getrusage(resource.RUSAGE_CHILDREN), time.perf_counter()
    ran = subprocess.run(words, cwd=where, input=text, capture_output=True, check=False)
    wall, after = time.perf_counter() - began, resource.getrusage(resource.RUSAGE_CHILDREN)
    used = after.ru_utime + after.ru_stime - before.ru_utime - before.ru_stime
    first = (ran.stdout or ran.stderr).decode("latin1").partition("\n")[0]
    print(f"{title}: {wall:.1f} s, {used:.1f} s of a processor, at most {after.ru_maxrss // 1024} MiB so far, status {ran.returncode}, {first}", flush=True)
    return ran.returncode


def tried(runs="2", word=""):
    with tempfile.TemporaryDirectory() as folder:
        top = clone(folder)
        subprocess.run(["rt", "new", f"{folder}/nothing", "start_io"], check=True, capture_output=True)
        for number in range(1, int(runs) + 1):
            if word in "the kit's program":
                timed(f"the kit's program, {number}", ["rt", "try"], f"{folder}/nothing", b"tea 95\n")
            for crate, words, files in LINES:
                if word not in f"{crate} {words} {' '.join(files)}":
                    continue
                text = b"//%%\n".join((top / "examples" / it).read_bytes() for it in files)
                timed(f"{crate} {words} < {' '.join(files) or 'nothing'}, {number}", ["rt", "try", "--", *words.split()], top / "crates" / crate, text)
    return 0


def linked(*programs):
    import small_checker  # (its own imports read all certificates' rules, which the other two do not need)

    on = small_checker.direct()
    for name, program in zip(("sketch", "sketch_check"), programs or (None, None)):
        crates = sorted(small_checker.built_of(name, on))
        kit = {it for crate in crates for it in on[crate]} - set(on)
        counted = [small_checker.lines_of(it) for it in crates]
        sizes = [sum(path.stat().st_size for it in crates for path in (TOP / "crates" / it).rglob(f"*.{kind}")) for kind in ("rt", "antt")]
        built = f", the program {pathlib.Path(program).stat().st_size} bytes" if program else ""
        print(f"{name}: {len(crates)} crates, and of the kit {' '.join(sorted(kit)) or 'none but std'}; {sum(a for a, _ in counted)} lines of code, {sum(b for _, b in counted)} of contracts; {sizes[0]} bytes of .rt, {sizes[1]} of .antt{built}")
    return 0


def run():
    with tempfile.TemporaryDirectory() as folder:
        top = clone(folder)
        ended = timed("rt run -- --version, from nothing", ["rt", "run", "--", "--version"], top / "crates/sketch")
        timed("the same once more", ["rt", "run", "--", "--version"], top / "crates/sketch")
        program = top / "crates/sketch/out/sketch"
        if program.is_file():
            timed("the program itself on doubled.sk", [program, "synth"], folder, (top / "examples/doubled.sk").read_bytes())
            print(f"{program.relative_to(top)}: {program.stat().st_size} bytes")
    return ended


if __name__ == "__main__":
    what = {"try": tried, "linked": linked, "run": run}
    if len(sys.argv) < 2 or sys.argv[1] not in what:
        sys.exit(__doc__)
    sys.exit(what[sys.argv[1]](*sys.argv[2:]))
