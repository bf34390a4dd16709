"""Follows every way that a search with a budget of rounds can take, and compares rows with the endings that it comes to.

    python3 rounds.py [FILE..]

Of each row of a line `synth --rounds N` without `--conflicts`, or with a budget of them on a text that asks the solver
nothing, every choice that passes the listed inputs is taken next, and every input that is bad for it. Each ending that
is come to has to be an answer of the row, and each answer written in full has to be come to. The files are
crates/rows_commands/data/budgets.txt if left out.
"""
import itertools
import pathlib
import sys

import cases
import search
import sketch

MOST = 200000


class Search:
    """A sketch with what every choice does on every input."""

    def __init__(self, text, options):
        prog, b = sketch.load(text, **options)
        self.found = sketch.expand(prog, b)
        self.choices = list(itertools.product(*[range(n) for n in sketch.sites(self.found, b)]))
        self.questions = search.asked(self.found, b)
        self.inputs = list(search.all_inputs(self.questions, b))
        self.filled = [sketch.fill(self.found, list(c)) for c in self.choices]
        self.does = [[search.cost_on(f, b, self.questions[i][0], a) for i, a in self.inputs] for f in self.filled]
        self.is_paid = any(w in text for w in ("minimize", "minrepeat"))

    def passes(self, choice, k, limit):
        broken, cost = self.does[choice][k]
        return not broken and (limit is None or cost <= limit)

    def result(self, choice, value=None):
        holes = "".join(f" {v}" for v in self.choices[choice])
        said = "" if value is None else f"//@ value {value}\n"
        return f"{sketch.layout(self.filled[choice])}//@ completion\n{said}//@ holes{holes}\n"

    def spent(self, pairs, best):
        out = "" if best is None else self.result(best)
        out += f"//@ spent rounds {len(pairs)}\n"
        for choice, k in pairs:
            i, args = self.inputs[k]
            out += "//@ choice" + "".join(f" {v}" for v in self.choices[choice]) + "\n"
            out += f"//@ input {i}" + "".join(" " + cases.spelt(a) for a in args) + "\n"
        return ("2" if best is None else "3"), out

    def endings(self, rounds):
        """Each ending, by looking for a choice within a limit, and then for what it costs."""
        waiting, tried = [("choose", (), None, None, None)], 0
        while waiting:
            step, pairs, limit, best, value = waiting.pop()
            tried += 1
            if tried > MOST:
                raise OverflowError
            if rounds and len(pairs) == rounds:
                yield self.spent(pairs, best)
            elif step == "choose":
                waiting += self.chosen(pairs, limit, best) or [("end", pairs, limit, best, value)]
            elif step == "cost":
                dearer = [k for k in range(len(self.inputs)) if self.does[best][k][1] > value]
                waiting += [("cost", pairs + ((best, k),), limit, best, self.does[best][k][1]) for k in dearer]
                if not dearer and value == 0:
                    waiting.append(("end", pairs, limit, best, value))
                elif not dearer:
                    waiting.append(("choose", pairs, value - 1, best, value))
            elif best is None:
                yield "1", "//@ none\n"
            else:
                yield "0", self.result(best, value)

    def chosen(self, pairs, limit, best):
        """What follows each choice that passes the listed inputs."""
        found = []
        for choice in range(len(self.choices)):
            if not all(self.passes(choice, k, limit) for _, k in pairs):
                continue
            bad = [k for k in range(len(self.inputs)) if not self.passes(choice, k, limit)]
            found += [("choose", pairs + ((choice, k),), limit, best, None if best is None else limit + 1) for k in bad]
            if not bad:
                cost = max((self.does[choice][k][1] for _, k in pairs), default=0)
                found.append(("cost" if self.is_paid else "end", pairs, limit, choice, cost))
        return found


def is_answer(ending, answer):
    status, out = answer
    if out.endswith("..\n"):
        return ending[0] == status and ending[1].startswith(out[:-3])
    return ending == answer


def main(names):
    for name in names or [cases.DATA / "budgets.txt"]:
        same = other = 0
        for title, line, _, text, answers in cases.rows(pathlib.Path(name)):
            words = line.split()
            options, others = cases.bounds(words[1:])
            if "--rounds" not in words:
                other += 1
                continue
            rounds = int(words[words.index("--rounds") + 1])
            try:
                endings = set(Search(text, options).endings(rounds))
            except OverflowError:
                print(f"{title}: too many ways")
                other += 1
                continue
            strange = [e for e in endings if not any(is_answer(e, a) for a in answers)]
            unmet = [a for a in answers if not any(is_answer(e, a) for e in endings)]
            if strange or unmet:
                print(f"{title}: comes to {strange[:2]}, never to {unmet[:2]}")
            else:
                same += 1
        print(f"{pathlib.Path(name).name}: {same} rows agree, {other} are not asked")


if __name__ == "__main__":
    main(sys.argv[1:])
