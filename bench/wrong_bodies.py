#!/usr/bin/env python3
"""Tries the wrong bodies of dear crates, which the gate does not try: bench/wrong_bodies/CRATE/NAME.edit, each an edit that the proof of
the crate must refuse. Run it after a change of such a crate, or of what its contracts cite.

  wrong_bodies.py [--in FOLDER] [CRATE..]     of these crates, or of all that have a folder here

The edits are laid into a clone of what is committed (FOLDER, where it is given and is a clone already: then with the libraries that stand
built in it), and `rt must-fail` runs there; its last lines say how many were refused, and its status is 0 where all were."""
import pathlib
import shutil
import subprocess
import sys
import tempfile

TOP = pathlib.Path(__file__).resolve().parents[1]
HERE = TOP / "bench/wrong_bodies"


def lay(clone, crates):
    for crate in crates:
        to = clone / "crates" / crate / "must-fail"
        shutil.rmtree(to, ignore_errors=True)
        shutil.copytree(HERE / crate, to)


def main(words):
    clone = None
    if words[:1] == ["--in"] and len(words) > 1:
        clone, words = pathlib.Path(words[1]).resolve(), words[2:]
    known = sorted(it.name for it in HERE.iterdir() if it.is_dir())
    lacking = [it for it in words if it not in known]
    if lacking or any(it.startswith("-") for it in words):
        print(__doc__)
        print(f"crates with wrong bodies here: {' '.join(known)}")
        return 2
    crates = words or known
    with tempfile.TemporaryDirectory() as room:
        if clone is None:
            clone = pathlib.Path(room) / "clone"
            subprocess.run(["git", "clone", "-q", str(TOP), str(clone)], check=True)
        lay(clone, crates)
        try:
            return subprocess.run(["rt", "must-fail", *crates], cwd=clone).returncode
        finally:
            for crate in crates:
                shutil.rmtree(clone / "crates" / crate / "must-fail", ignore_errors=True)


if __name__ == "__main__":
    sys.exit(main(sys.argv[1:]))
