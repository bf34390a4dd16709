#!/usr/bin/env python3
"""Takes the time of `sketch synth`, `synth --cert` and `check` on the sketches of bench/sketches, one after another.

    certificate_times.py PROGRAM [SECONDS]

Each certificate has to be accepted. Times are user seconds of whole processes; those below 0.01 count as 0.01. A sketch
whose `synth` or `synth --cert` is cut off after SECONDS (40) is named and left out. Ratios are of the sketches whose
`synth --cert` takes 0.02 seconds or more. The status of this script is 1 where a certificate is not accepted."""
import importlib.util
import pathlib
import statistics
import sys

import mutants

AT_LEAST = 0.02

# (bench/reference has a module of that name too)
found = importlib.util.spec_from_file_location("bench_search", pathlib.Path(__file__).with_name("search.py"))
search = importlib.util.module_from_spec(found)
found.loader.exec_module(search)


def times_of(program, path, limit):
    """The times of the three, or what went otherwise."""
    text = path.read_text()
    words = mutants.bounds_of(search.wanted(text)[0])
    plain = search.timed([program, "synth", *words], limit, text)
    proved = search.timed([program, "synth", "--cert", *words], limit, text)
    if None in (plain[0], proved[0]):
        return "cut off: " + ("synth" if plain[0] is None else "synth --cert")
    given = mutants.Certified(path.stem, words, text.encode("latin1"), proved[1].encode("latin1"))
    judged = search.timed([program, "check", *words], limit, given.given(given.text).decode("latin1"))
    return (plain[2], proved[2], judged[2]) if judged[0] == 0 else f"check ends with {judged[0]}"


def main(program="", limit="40"):
    if not program:
        print(__doc__)
        return 2
    found, refused = {}, False
    for path in sorted(search.SKETCHES.glob("*.sk")):
        told = times_of(program, path, int(limit))
        refused |= isinstance(told, str) and told.startswith("check")
        print(f"{path.stem:22} {told if isinstance(told, str) else '  '.join(f'{it:7.2f}' for it in told)}", flush=True)
        if not isinstance(told, str) and told[1] >= AT_LEAST:
            found[path.stem] = told
    for what, one, other in (("synth --cert, as a multiple of synth", 1, 0), ("check, as a multiple of synth --cert", 2, 1)):
        ratios = {name: it[one] / it[other] for name, it in found.items()}
        worst = max(ratios, key=ratios.get)
        print(f"{what}: mean {statistics.geometric_mean(ratios.values()):.2f} of {len(ratios)}, most {ratios[worst]:.2f} ({worst})")
    return int(refused)


if __name__ == "__main__":
    sys.exit(main(*sys.argv[1:]))
