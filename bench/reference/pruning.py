"""What a line `prune` writes, computed apart from the program, over the reference in sketch.py: the text of a program without open
parts is expanded, its bodies are trimmed, and the functions that nothing reaches are left out.

    python3 pruning.py TEXT [options of bounds]
"""
import copy
import sys

import sketch
from sketch import N, INT, BIT


def value_of(e, consts, width):
    """The value of an expression whatever its variables hold: a number, True or False, or None where it has none."""
    def wrap(n):
        n %= 2 ** width
        return n - 2 ** width if n >= 2 ** (width - 1) else n
    k = e.k
    if k == "num":
        return wrap(e.v) if e.ty == INT else bool(e.v) if e.ty == BIT else None
    if k in ("true", "false"):
        return k == "true"
    if k == "const":
        return consts[e.name]
    if k == "paren":
        return value_of(e.e, consts, width)
    if k == "toint":
        v = value_of(e.e, consts, width)
        return int(v) if isinstance(v, bool) else None
    if k == "unary":
        v = value_of(e.e, consts, width)
        return not v if isinstance(v, bool) and e.op in "!~" else None
    if k == "binary":
        a, b = value_of(e.l, consts, width), value_of(e.r, consts, width)
        if e.op in ("&&", "||"):
            decides = e.op == "||"
            if a is decides:
                return decides
            return b if isinstance(a, bool) and isinstance(b, bool) else None
        if a is None or b is None or isinstance(a, bool) != isinstance(b, bool):
            return None
        if e.op in ("==", "!="):
            return (a == b) == (e.op == "==")
        if isinstance(a, bool):
            return {"&": a and b, "|": a or b, "^": a != b}.get(e.op)
        return {"<": a < b, "<=": a <= b, ">": a > b, ">=": a >= b}.get(e.op)
    return None


class Trimmer:
    def __init__(self, prog, width):
        self.consts = {c[0]: c[2] for c in prog.consts}
        self.width = width

    def value(self, e):
        return value_of(e, self.consts, self.width)

    def body(self, s):
        """The statements of a body, and whether they never go on."""
        if s is None:
            return [], False
        return self.stmts(s.body) if s.k == "block" else self.stmt(s, True)

    def stmts(self, ss):
        out = []
        for s in ss:
            made, ends = self.stmt(s, False)
            out += made
            if ends:
                return out, True
        return out, False

    def block(self, ss, s, is_body):
        made, ends = self.stmts(ss)
        if not is_body and any(x.k == "declare" for x in made):
            made = [N("block", s.span, body=made)]
        return made, ends

    def again(self, s, **parts):
        made = copy.copy(s)
        made.__dict__.update(parts)
        return made

    def inside(self, s, span):
        made, ends = self.stmt(s, True)
        return N("block", span, body=made), ends

    def stmt(self, s, is_body):
        if s.k == "block":
            return self.block(s.body, s, is_body)
        if s.k == "if":
            v = self.value(s.cond)
            if v is True:
                return self.stmt(s.then, is_body)
            if v is False:
                return ([], False) if s.other is None else self.stmt(s.other, is_body)
            then, a = self.inside(s.then, s.span)
            other, b = (None, False) if s.other is None else self.inside(s.other, s.span)
            if other is not None and not other.body:
                other = None
            return [self.again(s, then=then, other=other)], a and b
        if s.k == "while":
            if self.value(s.cond) is False:
                return [], False
            return [self.again(s, body=self.inside(s.body, s.span)[0])], False
        if s.k == "return":
            return [s], True
        return [s], False


def called(x, found):
    if isinstance(x, N):
        if x.k == "call":
            found.append(x.f)
        for v in x.__dict__.values():
            called(v, found)
    elif isinstance(x, (list, tuple)):
        for v in x:
            called(v, found)


def pruned(prog, bounds):
    """A filled program without what no run can reach."""
    prog = copy.copy(prog)
    trimmer = Trimmer(prog, bounds["W"])
    prog.funs = [trimmer.again(f, body=trimmer.stmts(f.body)[0]) for f in prog.funs]
    by_name = {f.name: f for f in prog.funs}
    left = [n for f in prog.funs for n in [f.name] * (f.kind == "harness") + [f.name, f.imp] * (f.imp is not None)]
    stay = set()
    while left:
        name = left.pop()
        if name not in stay:
            stay.add(name)
            called(by_name[name].body, left)
    prog.funs = [f for f in prog.funs if f.name in stay]
    return prog


def answer(text, **options):
    """The text that a line `prune` writes, or the message with which it ends."""
    try:
        prog, bounds = sketch.load(text, **options)
    except sketch.Refuse as fault:
        return {11: f"text {fault.a[1]}", 12: f"type {fault.a[1]}"}[fault.a[0]], ""
    found = sketch.expand(prog, bounds)
    if sketch.sites(found, bounds):
        return "exec Unfilled", ""
    return "0", sketch.layout(pruned(sketch.fill(found, []), bounds))


if __name__ == "__main__":
    print(*answer(open(sys.argv[1]).read()), sep="\n", end="")
