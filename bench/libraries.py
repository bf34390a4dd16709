#!/usr/bin/env python3
"""Libraries for checks of crates above them. For development only: no verdict rests on them.

  libraries.py take CHECKOUT [CRATE..]       gives CHECKOUT each library that an `rt ci` on this machine kept of the same files over the same
                                             libraries: those below these crates and these, or all
  libraries.py build CHECKOUT JOBS CRATE..   proves the libraries below these crates, and these, JOBS side by side, lowest first
  libraries.py lay CHECKOUT FROM..           links libraries that stand built in the checkouts FROM into CHECKOUT, for each crate
                                             whose files, and those of all below it, are the same in both

`rt` locks all crates of a checkout, so that two `rt lib` in it wait for each other; this does not, so let no other `rt` run in
CHECKOUT. After `take` and `lay`, `rt check` in a crate begins at that crate."""
import importlib.machinery
import importlib.util
import os
import shutil
import subprocess
import sys
import time
from concurrent.futures import FIRST_COMPLETED, ThreadPoolExecutor, wait

sys.dont_write_bytecode = True


def loaded(name, path):
    """A file of the kit as a module of this name."""
    loader = importlib.machinery.SourceFileLoader(name, path)
    module = importlib.util.module_from_spec(importlib.util.spec_from_loader(name, loader))
    sys.modules[name] = module
    sys.argv = ["rt"]
    loader.exec_module(module)
    return module


def kit():
    """The kit's own module on crates, with each crate's sum taken once, and its program, where that keeps what it proved."""
    path = os.path.realpath(shutil.which("rt"))
    program = loaded("rt_program", path)
    module = getattr(program, "rtlib", None) or loaded("rtlib", f"{os.path.dirname(path)}/rtlib.py")
    sums, stamp = {}, module.Crate.stamp

    def stamp_once(crate):
        if crate.folder not in sums:
            sums[crate.folder] = stamp(crate)
        return sums[crate.folder]

    module.Crate.stamp = stamp_once
    module.Crate.cuts_libraries = True
    # (its first call sets a signal's handler, which only the main thread may)
    module.guarded()
    return module, program


def lowest_first(crates):
    found = []
    for crate in crates:
        found += [it for it in [*crate.below(), crate] if it not in found]
    return [it for it in found if it.makes_rlib()]


def cut(crate):
    """Proves a crate, and leaves its statements alone, as the gate does: what stands above loads no proofs."""
    stamp, kept = crate.stamp(), f"{crate.folder}/out/rlib/stamp"
    status = crate.build_rlib(["--jobs", "1"], anew=True)
    if status == 0:
        with open(kept, "w", encoding="utf-8") as it:
            it.write(stamp)
    return status


def build(rtlib, root, jobs, names):
    known = {it.name: it for it in rtlib.crates_below(root)}
    crates = lowest_first([known[it] for it in names])
    done, failed = {it.name for it in crates if it.is_built()}, set()
    left, running = [it for it in crates if it.name not in done], {}
    print("to build:", " ".join(it.name for it in left) or "none", flush=True)

    def prove(crate):
        began = time.time()
        os.makedirs(f"{crate.folder}/out", exist_ok=True)
        with open(f"{crate.folder}/out/build.log", "w") as crate.out:
            try:
                status = cut(crate)
            except SystemExit:
                status = 2
        how = f"{time.time() - began:.0f} s" if status == 0 else f"FAILED, see {crate.folder}/out/build.log"
        print(f"{time.strftime('%H:%M:%S')} {crate.name}: {how}", flush=True)
        return crate.name, status

    with ThreadPoolExecutor(jobs) as pool:
        while left or running:
            left = [it for it in left if not failed & {below.name for below in it.below()}]
            for crate in [it for it in left if all(below.name in done for below in it.below())][: jobs - len(running)]:
                left.remove(crate)
                running[pool.submit(prove, crate)] = crate
            if not running:
                break
            for it in wait(running, return_when=FIRST_COMPLETED).done:
                name, status = it.result()
                del running[it]
                (failed if status else done).add(name)
    return 1 if failed else 0


def take(rtlib, program, root, names):
    known = {it.name: it for it in rtlib.crates_below(root)}
    crates = lowest_first([known[it] for it in names or known])
    kept, given, lacking = program.Kept(crates), [], []
    for crate in crates:
        if all(it.name in kept.rlibs for it in crate.below()) and (crate.is_built() or kept.give(crate, False, kept.key(crate))):
            with open(f"{crate.folder}/out/rlib/stamp", "w", encoding="utf-8") as it:
                it.write(crate.stamp())
            kept.is_built(crate)
        (given if crate.name in kept.rlibs else lacking).append(crate.name)
    print(f"{len(given)} libraries stand; lacking: {' '.join(lacking) or 'none'}")
    return 0


def lay(rtlib, root, froms):
    laid, lacking = [], []
    for crate in lowest_first(rtlib.crates_below(root)):
        made = f"crates/{crate.name}/out/rlib"
        found = [it for it in froms if it != root and rtlib.text_of(f"{it}/{made}/stamp") == crate.stamp()]
        if not crate.is_built() and found:
            shutil.rmtree(f"{root}/{made}", ignore_errors=True)
            os.makedirs(os.path.dirname(f"{root}/{made}"), exist_ok=True)
            subprocess.run(["cp", "-al", f"{found[0]}/{made}", f"{root}/{made}"], check=True)
        (laid if crate.is_built() else lacking).append(crate.name)
    print(f"{len(laid)} libraries stand; lacking: {' '.join(lacking) or 'none'}")
    return 0


def main(verb="", root="", *words):
    if verb not in ("take", "build", "lay") or not root or (verb != "take" and not words):
        print(__doc__)
        return 2
    (rtlib, program), root = kit(), os.path.abspath(root)
    os.chdir(root)
    if verb == "take":
        if not hasattr(program, "Kept"):
            print("this kit keeps nothing: use build and lay")
            return 2
        return take(rtlib, program, root, words)
    if verb == "build":
        return build(rtlib, root, int(words[0]), words[1:])
    return lay(rtlib, root, [os.path.abspath(it) for it in words])


if __name__ == "__main__":
    sys.exit(main(*sys.argv[1:]))
