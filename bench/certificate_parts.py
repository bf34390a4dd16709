#!/usr/bin/env python3
"""Writes each part of a certificate as a formula in the DIMACS format and a DRAT proof, so that checkers by others can judge them.

    certificate_parts.py CERTIFICATE FOLDER

CERTIFICATE is what `sketch synth --cert` wrote. For each upper part I the files upperI.cnf and upperI.drat are written into FOLDER,
and for a lower part lower.cnf and lower.drat. A log adds clauses alone, each by reverse unit propagation, and so it is a DRAT proof
as it stands:

    drat-trim FOLDER/upper0.cnf FOLDER/upper0.drat

That a formula is the one that its question has is not judged so: `sketch check` makes it anew. Status 1: the text departs from the
form of certificates, and the fault is told with its line.
"""
import pathlib
import sys

TOP = pathlib.Path(__file__).resolve().parents[1]
sys.path[:0] = [str(TOP / "bench/reference"), str(TOP / "bench")]
import certificates  # noqa: E402
import checks  # noqa: E402


def lines(clauses):
    return "".join(" ".join(map(str, [*clause, 0])) + "\n" for clause in clauses)


def dimacs(part):
    """The formula of a part. The names of its bits stand in a comment."""
    names = "c names " + " ".join(map(str, part.names))
    return f"{names}\np cnf {part.variables} {len(part.clauses)}\n{lines(part.clauses)}"


def named_parts(certificate):
    yield from ((f"upper{i}", part) for i, part in enumerate(certificate.upper))
    if certificate.lower:
        yield "lower", certificate.lower


def written(text, folder):
    """The names of the parts of a certificate, each of which is written into the folder."""
    folder.mkdir(parents=True, exist_ok=True)
    names = []
    for name, part in named_parts(checks.read(text)):
        (folder / f"{name}.cnf").write_text(dimacs(part))
        (folder / f"{name}.drat").write_text(lines(part.log))
        names.append(name)
    return names


def main(file, folder):
    text = pathlib.Path(file).read_bytes()
    form = certificates.verdict(text)
    if form != "reads":
        print(f"certificate {form}", file=sys.stderr)
        return 1
    for name in written(text, pathlib.Path(folder)):
        print(name)
    return 0


if __name__ == "__main__":
    sys.exit(main(*sys.argv[1:]))
