# Algebraic types in the reference: how `adt`, `switch` and `new V` become tokens of a plain sketch, and whether a typed program keeps
# the rules of tags. Written apart from the program, over the tokens and typed programs of sketch.py.
from sketch import N, ORDER, Refuse

OPEN, CLOSE = ("{", "(", "[", "{|"), ("}", ")", "]", "|}")


class Text:
    def __init__(self, tokens):
        self.tokens = tokens
        self.types, self.switches = [], []  # (name, at, [(variant, at, [(field, at)])]) and [(word, at)] of each switch
        self.kinds = {}  # token's number -> what stands there: ("adt", type, end) or ("switch", variable, cases, end)
        self.read()

    def value(self, i, kind=None):
        if i >= len(self.tokens):
            return None
        k, v = self.tokens[i][:2]
        if kind is None:
            return v if k in ("key", "mark") else None
        return v if k == kind else None

    def at(self, i):
        return self.tokens[i][2]

    def no_form(self, i):
        raise Refuse(21, "NoForm", self.at(i))

    def read(self):
        i = 0
        while i < len(self.tokens):
            v = self.value(i)
            if v == "adt":
                end = self.type_at(i)
                if end is None:
                    self.no_form(i)
                i = end
            elif v == "switch":
                if not self.switch_at(i):
                    self.no_form(i)
                i += 1
            elif v == "case":
                if i not in self.kinds:
                    self.no_form(i)
                i += 1
            else:
                i += 1

    def type_at(self, i):
        name = self.value(i + 1, "word")
        if name is None or self.value(i + 2) != "{":
            return None
        j, variants = i + 3, []
        while self.value(j) != "}":
            variant = self.value(j, "word")
            if variant is None or self.value(j + 1) != "{":
                return None
            at, j, fields = j, j + 2, []
            while self.value(j) != "}":
                first = j
                if self.value(j) not in ("int", "bit") and self.value(j, "word") is None:
                    return None
                j += 1
                for _ in range(2):
                    if self.value(j) == "[":
                        if self.value(j + 1, "word") is None and self.value(j + 1, "num") is None or self.value(j + 2) != "]":
                            return None
                        j += 3
                if self.value(j, "word") is None or self.value(j + 1) != ";":
                    return None
                fields.append((self.value(j, "word"), j, first))
                j += 2
            variants.append((variant, at, fields))
            j += 1
        if not variants:
            return None
        self.types.append((name, i + 1, variants))
        self.kinds[i] = ("adt", self.types[-1], j)
        return j + 1

    def closing(self, i):
        """The number of the brace that closes the one with this number."""
        depth = 0
        for j in range(i, len(self.tokens)):
            depth += (self.value(j) == "{") - (self.value(j) == "}")
            if depth == 0:
                return j
        return None

    def switch_at(self, i):
        if self.value(i + 1) != "(" or self.value(i + 2, "word") is None or self.value(i + 3) != ")" or self.value(i + 4) != "{":
            return False
        j, cases = i + 5, []
        while self.value(j) == "case":
            if self.value(j + 1, "word") is None or self.value(j + 2) != ":" or self.value(j + 3) != "{":
                return False
            end = self.closing(j + 3)
            if end is None:
                return False
            cases.append((j, end))
            j = end + 1
        if not cases or self.value(j) != "}":
            return False
        for c, _ in cases:
            self.kinds[c] = ("case",)
        self.kinds[i] = ("switch", cases, j)
        self.switches.append([(self.value(c + 1, "word"), c + 1) for c, _ in cases])
        return True

    def faults(self):
        def again(words):
            seen, found = set(), []
            for w, i in words:
                if w in seen:
                    found.append(i)
                seen.add(w)
            return found

        names = [(w, i) for name, at, variants in self.types for w, i in [(name, at)] + [(v, k) for v, k, _ in variants]]
        twice = again(names) + [i for _, _, vs in self.types for _, _, fs in vs for i in again([(f, k) for f, k, _ in fs])]
        twice += [i for s in self.switches for i in again(s)]
        owner = {v: name for name, _, variants in self.types for v, _, _ in variants}
        stray = [i for s in self.switches for w, i in s if w not in owner or owner[w] != owner.get(s[0][0])]
        many = [at for _, at, vs in self.types if len(vs) > 16] + [k for _, _, vs in self.types for _, k, fs in vs if len(fs) > 16]
        for name, found in (("Twice", twice), ("NoVariant", stray), ("TooMany", many)):
            if found:
                raise Refuse(21, name, self.at(min(found)))


def lower(tokens):
    """The plain tokens, and the types with how many fields each variant has."""
    text = Text(tokens)
    text.faults()
    variants = {v: (name, i, [f for f, _, _ in fs]) for name, _, vs in text.types for i, (v, _, fs) in enumerate(vs)}
    out, last = [], [(0, 0)]

    def old(token):
        last[0] = token[2:4]
        out.append(token)

    def made(kind, value, span=None):
        if span is not None:
            last[0] = span
        out.append((kind, value, *last[0]))

    def field(variant, f):
        _, i, fields = variants[variant]
        return f"v{i}f{fields.index(f)}" if f in fields else None

    def lower_type(entry, i):
        (name, at, vs), end = entry[1], entry[2]
        made("key", "struct", tokens[i][2:4])
        old(tokens[at])
        old(tokens[at + 1])
        made("key", "int"), made("word", "tag"), made("mark", ";")
        for n, (_, _, fields) in enumerate(vs):
            for k, (_, word, first) in enumerate(fields):
                for j in range(first, word):
                    old(tokens[j])
                made("word", f"v{n}f{k}", tokens[word][2:4])
                old(tokens[word + 1])
        old(tokens[end])
        return end + 1

    def lower_switch(entry, i, inside):
        cases, end = entry[1], entry[2]
        x = tokens[i + 2]
        for n, (c, close) in enumerate(cases):
            v = tokens[c + 1][1]
            if n == 0:
                made("key", "if", tokens[i][2:4])
                old(tokens[i + 1]), old(x)
            else:
                made("key", "if"), made("mark", "("), made("word", x[1])
            made("mark", "."), made("word", "tag"), made("mark", "=="), made("num", variants[v][1])
            if n == 0:
                old(tokens[i + 3])
            else:
                made("mark", ")")
            old(tokens[c + 3])
            walk(c + 4, close, inside + [(x[1], v)])
            old(tokens[close])
            made("key", "else"), made("mark", "{")
        made("key", "assert"), made("key", "false"), made("mark", ";")
        for _ in cases:
            made("mark", "}")
        return end + 1

    def walk(i, end, inside):
        while i < end:
            entry = text.kinds.get(i)
            if entry and entry[0] == "adt":
                i = lower_type(entry, i)
            elif entry and entry[0] == "switch":
                i = lower_switch(entry, i, inside)
            elif tokens[i][0] == "word" and text.value(i + 1) == "." and i + 2 < end and tokens[i + 2][0] == "word" and (i == 0 or text.value(i - 1) != "."):
                case = [v for x, v in inside if x == tokens[i][1]]
                f = field(case[-1], tokens[i + 2][1]) if case else None
                old(tokens[i]), old(tokens[i + 1])
                if f is None:
                    old(tokens[i + 2])
                else:
                    made("word", f, tokens[i + 2][2:4])
                i += 3
            else:
                old(tokens[i])
                i += 1

    walk(0, len(tokens), [])
    return build(out, variants, field), [(name, [len(fs) for _, _, fs in vs]) for name, _, vs in text.types]


def build(tokens, variants, field):
    out, lists, i = [], [], 0
    while i < len(tokens):
        kind, value, *span = tokens[i]
        after = tokens[i + 1] if i + 1 < len(tokens) else ("eof", None, 0, 0)
        if kind == "key" and value == "new" and after[0] == "word" and after[1] in variants and tokens[i + 2 : i + 3] and tokens[i + 2][:2] == ("mark", "("):
            name, n, _ = variants[after[1]]
            opening = tokens[i + 2]
            out += [tokens[i], ("word", name, *after[2:4]), opening]
            out += [("word", "tag", *opening[2:4]), ("mark", "=", *opening[2:4]), ("num", n, *opening[2:4])]
            if tokens[i + 3 : i + 4] and tokens[i + 3][:2] != ("mark", ")"):
                out.append(("mark", ",", *opening[2:4]))
            lists.append(after[1])
            i += 3
            continue
        if kind == "mark" and value in OPEN:
            lists.append(None)
        if kind == "mark" and value in CLOSE and lists:
            lists.pop()
        if kind == "word" and after[:2] == ("mark", "=") and lists and lists[-1] is not None:
            value = field(lists[-1], value) or value
        out.append((kind, value, *span))
        i += 1
    return out


class Tags:
    """The spans of a typed program that break a rule of tags, in its order."""

    def __init__(self, prog, types):
        self.types = dict(types)
        self.fields = {name: [f for f, _ in fs] for name, fs in prog.structs}
        self.params = {f.name: f.params for f in prog.funs}
        self.found = []
        for f in prog.funs:
            self.all(f.body, [])

    def role(self, struct, f):
        """None for a field of no algebraic struct, "tag", or the number of its variant."""
        if struct not in self.types:
            return None
        k = self.fields[struct].index(f)
        if k == 0:
            return "tag"
        for i, n in enumerate(self.types[struct]):
            if k <= n:
                return i
            k -= n
        return None

    def test(self, e):
        if e.k == "binary" and e.op == "==" and e.l.k == "member" and e.l.base.k == "var" and e.r.k == "num":
            if self.role(e.l.base.ty[1], e.l.name) == "tag":
                return (e.l.base.slot, e.r.v)
        return None

    def touched(self, x):
        """The variables that are assigned, declared or passed to a `ref` parameter in it."""
        if isinstance(x, (list, tuple)):
            return set().union(*map(self.touched, x)) if x else set()
        if not isinstance(x, N):
            return set()
        found = set()
        for key, part in x.__dict__.items():
            if key not in ("span", "ty"):
                found |= self.touched(part)
        if x.k == "declare":
            found.add(x.slot)
        if x.k == "assign":
            found |= {e.slot for e in (x.target.es if x.target.k == "pattern" else [x.target]) if e.k == "var"}
        if x.k == "call":
            found |= {a.slot for a, (_, _, by_ref) in zip(x.args, self.params[x.f]) if by_ref}
        return found

    def all(self, x, tests):
        if isinstance(x, (list, tuple)):
            for y in x:
                self.all(y, tests)
        if isinstance(x, N):
            self.one(x, tests)

    def one(self, x, tests):
        if x.k == "if":
            test = self.test(x.cond)
            within = tests
            if test is None:
                self.all(x.cond, tests)
            elif test[0] not in self.touched(x.then):
                within = tests + [test]
            self.all(x.then, within)
            self.all(x.other, tests)
            return
        if x.k == "member":
            role = self.role(x.base.ty[1], x.name)
            if role == "tag" or role is not None and not (x.base.k == "var" and (x.base.slot, role) in tests):
                self.found.append(x.span)
        if x.k == "new" and x.s in self.types and not self.fits(x):
            self.found.append(x.span)
        for key in ORDER.get(x.k, ()):
            self.all(getattr(x, key), tests)

    def fits(self, x):
        if not x.fields or self.role(x.s, x.fields[0][0]) != "tag" or x.fields[0][1].k != "num":
            return False
        i = x.fields[0][1].v
        return i < len(self.types[x.s]) and all(self.role(x.s, f) == i for f, _ in x.fields[1:])


def first_break(prog, types):
    found = Tags(prog, types).found
    return found[0] if found else None
