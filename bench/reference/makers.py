"""Makes random texts: sketches and programs that keep the rules of types for the most part, and sketches with algebraic types.

    python3 makers.py sketch|program|algebraic SEED

prints one. `Maker` writes functions over scalars, arrays, arrays of arrays, records and arrays of references, with every
statement and every construct that leaves something open; a text of `program` leaves nothing open. `Variants` writes algebraic
types with functions that switch over them. A text may still break a rule, read as no program or be too large: what it is
for decides whether that matters. No maker depends on anything but its source of random numbers.
"""
import random
import sys

STRUCTS = """struct S { int v; bit b; bit[3] w; int[3] a; S n; T t; S[2] q; int[2][2] g; }
struct T { int k; T l; T r; S s; }
int N = 3;
"""
SCALARS = ["int", "bit", "bit[3]", "int[3]", "int[2][2]"]
TYPES = SCALARS + ["S", "T", "S[2]"]
LEAST = {"int": "0", "bit": "0", "bit[3]": "{1}", "int[3]": "{1, 2}", "int[2][2]": "{{1}, {2}}", "S": "null", "T": "null", "S[2]": "{null}"}


# of each type an expression that has it by itself, where there is one that names no variable
FIRM = {"int": "N", "bit": "true", "S": "new S()", "T": "new T()"} | dict.fromkeys(["bit[3]", "int[3]", "int[2][2]", "S[2]"], "N")


class Maker:
    """Writes the text of one seed. With `is_open` parts are left open; `size` is how many functions there are beside the harness."""

    def __init__(self, source, is_open=True, size=3):
        self.source, self.is_open, self.size = source, is_open, size
        self.scopes, self.functions, self.count, self.result = [], [], 0, None
        self.opened = 0

    # names and choices

    def chance(self, part):
        return self.source.random() < part

    def one(self, *options):
        return self.source.choice(options)()

    def fresh(self):
        self.count += 1
        return f"x{self.count}"

    def names(self, ty):
        return [name for scope in self.scopes for name, its in scope.items() if its == ty]

    def name(self, ty):
        """A variable of a type, or nothing."""
        found = self.names(ty)
        return self.source.choice(found) if found else None

    def leaves(self, most):
        """Whether one more part may be left open: each text has a few, so that a search ends soon."""
        if not self.is_open or self.opened >= most or not self.chance(0.3):
            return False
        self.opened += 1
        return True

    # expressions

    def expr(self, ty, depth):
        if self.leaves(7):
            return self.left_open(ty)
        if depth <= 0 or self.chance(0.25):
            return self.name(ty) if self.names(ty) and self.chance(0.8) else LEAST[ty] if ty != "int" else str(self.source.choice([0, 1, 2, 3, 7]))
        call = self.call(ty, depth)
        if call and self.chance(0.25):
            return call
        member = self.member(ty, depth)
        if member and self.chance(0.3):
            return member
        if self.chance(0.1):
            return f"({self.expr('bit', depth - 1)} ? {self.expr(ty, depth - 1)} : {self.expr(ty, depth - 1)})"
        return getattr(self, "of_" + {"int": "int", "bit": "bit", "bit[3]": "bits", "int[3]": "array", "int[2][2]": "grid", "S": "record", "T": "tree", "S[2]": "records"}[ty])(depth - 1)

    def of_int(self, d):
        e = lambda: self.expr("int", d)
        return self.one(
            lambda: f"({e()} {self.source.choice('+-*+-')} {e()})",
            lambda: f"({e()} {self.source.choice('/%')} {e()})",
            lambda: f"-{e()}",
            lambda: f"({e()} + {self.expr('bit', d)})",
            lambda: self.indexed("int[3]", d, "int"),
            lambda: self.indexed("int[3]", d, "int", f"::2][{self.place(2, d)}"),
            lambda: self.indexed("int[2][2]", d, "int", f"][{self.place(2, d)}"),
            lambda: f"({e()})",
        )

    def of_bit(self, d):
        ty = self.source.choice(TYPES)
        return self.one(
            lambda: f"({self.expr('int', d)} {self.source.choice(['<', '<=', '>', '>=', '==', '!='])} {self.expr('int', d)})",
            lambda: f"({self.expr('bit', d)} {self.source.choice(['&&', '||', '^', '&', '|'])} {self.expr('bit', d)})",
            lambda: f"!{self.expr('bit', d)}",
            lambda: self.indexed("bit[3]", d, "bit"),
            lambda: f"({self.name(ty) or FIRM[ty]} {self.source.choice(['==', '!='])} {self.expr(ty if self.name(ty) or FIRM[ty] != 'N' else 'int', d)})",
        )

    def of_bits(self, d):
        e = lambda: self.expr("bit[3]", d)
        return self.one(
            lambda: f"({e()} {self.source.choice('&|^+')} {e()})",
            lambda: f"({self.name('bit[3]')} {self.source.choice(['<<', '>>'])} {self.expr('int', d)})" if self.name("bit[3]") else "1",
            lambda: f"~{e()}",
            lambda: "{" + ", ".join(self.expr("bit", d) for _ in range(self.source.randint(1, 3))) + "}",
        )

    def of_array(self, d):
        return self.one(
            lambda: "{" + ", ".join(self.expr("int", d) for _ in range(self.source.randint(1, 3))) + "}",
            lambda: self.indexed("int[3]", d, "int[3]", f"::{self.source.randint(1, 3)}"),
            lambda: self.name("int") or "1",
        )

    def of_grid(self, d):
        row = lambda: "{" + ", ".join(self.expr("int", d) for _ in range(self.source.randint(1, 2))) + "}"
        return "{" + ", ".join(row() for _ in range(self.source.randint(1, 2))) + "}"

    def of_record(self, d):
        fields = self.source.sample([("v", "int"), ("b", "bit"), ("w", "bit[3]"), ("a", "int[3]"), ("n", "S"), ("t", "T"), ("q", "S[2]"), ("g", "int[2][2]")], self.source.randint(0, 3))
        return self.one(
            lambda: "new S(" + ", ".join(f"{name} = {self.expr(ty, d)}" for name, ty in fields) + ")",
            lambda: self.indexed("S[2]", d, "S"),
        )

    def of_tree(self, d):
        fields = self.source.sample([("k", "int"), ("l", "T"), ("r", "T"), ("s", "S")], self.source.randint(0, 3))
        return "new T(" + ", ".join(f"{name} = {self.expr(ty, d)}" for name, ty in fields) + ")"

    def of_records(self, d):
        return "{" + ", ".join(self.expr("S", d) for _ in range(self.source.randint(1, 2))) + "}"

    def place(self, length, d):
        return str(self.source.randrange(length)) if self.chance(0.6) else self.expr("int", d)

    def indexed(self, ty, d, part, behind=""):
        """A part of a variable of a type, or the least value of the part's type where there is none."""
        found = self.name(ty)
        return f"{found}[{self.place(3 if ty in ('bit[3]', 'int[3]') else 2, d)}{behind}]" if found else LEAST[part]

    def member(self, ty, d):
        """A field of a record that a variable names."""
        of_s = {"int": "v", "bit": "b", "bit[3]": "w", "int[3]": "a", "S": "n", "T": "t", "S[2]": "q", "int[2][2]": "g"}
        of_t = {"int": "k", "T": "l", "S": "s"}
        ways = [name + "." + of_s[ty] for name in self.names("S")]
        ways += [name + "." + of_t[ty] for name in self.names("T") if ty in of_t]
        ways += [name + ".r" for name in self.names("T") if ty == "T"]
        ways += [name + ".n." + of_s[ty] for name in self.names("S")]
        return self.source.choice(ways) if ways else None

    def call(self, ty, d):
        """A call of a function of a type, or nothing. What is passed by reference is a variable."""
        ways = [f for f in self.functions if f[1] == ty]
        if not ways:
            return None
        name, _, params = self.source.choice(ways)
        given = []
        for index, (its, by_ref) in enumerate(params):
            if by_ref and not self.names(its):
                return None
            if index == 0:
                given.append(self.source.choice(["1", "2", "n - 1", "n - 1"]) if self.names("fuel") else self.source.choice(["1", "2", "3"]))
            else:
                given.append(self.name(its) if by_ref else self.expr(its, d - 1))
        return f"{name}({', '.join(given)})"

    def left_open(self, ty):
        if ty in ("int", "bit", "bit[3]") and self.chance(0.5):
            return "??(2)" if ty == "int" and self.chance(0.5) else "??"
        names = self.names(ty)
        if not names:
            return LEAST[ty]
        strings = {
            "int": lambda: f"({' | '.join(self.some(names))} | 1) ({'+ | - | *' if self.chance(0.7) else '+'}) ({self.source.choice(names)} | 2)",
            "bit": lambda: f"{self.name('int') or '1'} (< | <= | == | != | >= | >) {self.name('int') or '2'}",
            "S": lambda: f"({' | '.join(self.some(names))})(.n)? | null",
            "T": lambda: f"({' | '.join(self.some(names))})(.l | .r)? | null",
        }.get(ty, lambda: " | ".join(self.some(names)))
        return "{| " + strings() + " |}"

    def some(self, names):
        return self.source.sample(names, self.source.randint(1, min(3, len(names))))

    # statements

    def target(self, ty, d):
        """What may be assigned, as a variable, a part of one or of a record, or several of them."""
        if self.is_open and self.opened < 7 and ty in ("S", "T", "int") and self.chance(0.4):
            ways = {
                "S": [f"({' | '.join(self.some(self.names('S') or ['s']))})(.n)?", f"{self.name('S') or 's'}(.n | .n.n | .t.s)"],
                "T": [f"({' | '.join(self.some(self.names('T') or ['t']))})(.l | .r)?", f"{self.name('T') or 't'}(.l | .r)(.l | .r)", f"{self.name('T') or 't'}(.l | .r)?"],
                "int": [f"{self.name('S') or 's'}(.n)?.v | {self.name('int') or 'i'}", f"{self.name('int[3]') or 'a'}[(0 | 1 | 2)]", f"{self.name('T') or 't'}(.l | .r)?.k"],
            }[ty]
            self.opened += 1
            return "{| " + self.source.choice(ways) + " |}"
        member = self.member(ty, d)
        if member and self.chance(0.5):
            return member
        if ty == "int" and self.names("int[3]") and self.chance(0.3):
            return f"{self.name('int[3]')}[{self.place(3, d)}]"
        if ty == "int" and self.names("int[2][2]") and self.chance(0.2):
            return f"{self.name('int[2][2]')}[{self.place(2, d)}][{self.place(2, d)}]"
        if ty == "S" and self.names("S[2]") and self.chance(0.3):
            return f"{self.name('S[2]')}[{self.place(2, d)}]"
        return self.name(ty)

    def declared(self):
        ty = self.source.choice(TYPES)
        value = f" = {self.expr(ty, 3)}" if self.chance(0.85) else ""
        name = self.fresh()
        self.scopes[-1][name] = ty
        return f"{ty} {name}{value};"

    def assigned(self):
        ty = self.source.choice(TYPES)
        target = self.target(ty, 1)
        return f"{target} = {self.expr(ty, 3)};" if target else ";"

    def called(self):
        found = self.call(self.source.choice([f[1] for f in self.functions]), 2) if self.functions else None
        return f"{found};" if found else ";"

    def stepped(self):
        name = self.name("int")
        return f"{name}{self.source.choice(['++', '--', ' += 1', ' -= 2'])};" if name else ";"

    def statement(self, depth):
        ways = [self.declared, self.assigned, self.assigned, self.assigned, self.called, self.stepped]
        if self.chance(0.12):
            ways = [
                lambda: f"assert {self.expr('bit', 3)};",
                lambda: f"assume {self.expr('bit', 2)};",
                lambda: f"minimize({self.source.choice(['1', self.name('int') or '2', '??(2)' if self.is_open else '3'])});",
                lambda: f"if ({self.expr('bit', 1)}) return{'' if self.result == 'void' else ' ' + self.expr(self.result, 2)};",
            ]
        elif depth > 0 and self.chance(0.3):
            ways = [
                lambda: f"if ({self.expr('bit', 2)}) {self.block(depth - 1)}" + (f" else {self.block(depth - 1)}" if self.chance(0.6) else ""),
                lambda: f"while ({self.expr('bit', 2)}) {self.block(depth - 1)}",
                lambda: self.counted(depth),
                lambda: f"repeat ({'??(1)' if self.leaves(7) else self.source.choice('012')}) {self.block(depth - 1)}",
                lambda: (f"minrepeat {self.block(0)}" if self.leaves(4) else ";"),
                lambda: self.reordered(depth),
                lambda: self.block(depth - 1),
            ]
        return self.source.choice(ways)()

    def counted(self, depth):
        i = self.fresh()
        self.scopes.append({i: "int"})
        body = self.block(depth - 1)
        self.scopes.pop()
        return f"for (int {i} = 0; {i} < {self.source.randint(1, 3)}; {i}++) {body}"

    def reordered(self, depth):
        if self.is_open and self.opened > 6:
            return ";"
        self.opened += 2
        count = self.source.choice([2, 2, 3, 3, 4, 6]) if self.is_open else self.source.randint(0, 1)
        return "reorder { " + " ".join(self.source.choice([self.assigned, self.called, self.stepped, lambda: self.block(0)])() for _ in range(count)) + " }"

    def block(self, depth):
        self.scopes.append({})
        made = " ".join(self.statement(depth) for _ in range(self.source.randint(1, 3)))
        self.scopes.pop()
        return "{ " + made + " }"

    # functions

    def variables(self):
        """Declarations of variables of each type, in the block at hand."""
        given = {"i": "int", "c": "bit", "w": "bit[3]", "a": "int[3]", "g": "int[2][2]", "s": "S", "t": "T", "q": "S[2]"}
        said = []
        for name, ty in given.items():
            value = self.expr(ty, self.source.choice([0, 1, 2]))
            self.scopes[-1][name] = ty
            said.append(f"{ty} {name} = {value};")
        return " ".join(said) + " "

    def function(self, index):
        kind = "generator " if self.is_open and self.chance(0.25) else ""
        self.result = self.source.choice(TYPES + ["void"])
        params = [("int", False)] + [(self.source.choice(TYPES), self.chance(0.3)) for _ in range(self.source.randint(0, 3))]
        name = f"f{index}"
        names = ["n"] + [self.fresh() for _ in params[1:]]
        self.scopes = [{n: ty for n, (ty, _) in zip(names, params)} | {"fuel ": "fuel"}]
        spelt = ", ".join(("ref " if by_ref else "") + f"{ty} {n}" for n, (ty, by_ref) in zip(names, params))
        if self.chance(0.6) and (not kind or self.opened < 3):
            self.functions.append((name, self.result, params))
        ended = "return;" if self.result == "void" else f"return {self.expr(self.result, 1)};"
        body = (self.variables() if self.chance(0.7) else "") + " ".join(self.statement(2) for _ in range(self.source.randint(1, 3)))
        last = "" if self.result == "void" else f" return {self.expr(self.result, 3)};"
        self.functions = [f for f in self.functions if f[0] != name] + [(name, self.result, params)]
        return f"{kind}{self.result} {name}({spelt}) {{ if (n <= 0) {ended} {body}{last} }}\n"

    def harness(self):
        self.result = "void"
        params = [self.source.choice(["int", "bit", "bit[3]", "int", "int[3]"]) for _ in range(self.source.randint(0, 2))]
        names = [self.fresh() for _ in params]
        self.scopes = [dict(zip(names, params))]
        spelt = ", ".join(f"{ty} {n}" for n, ty in zip(names, params))
        body = (self.variables() if self.chance(0.9) else "") + " ".join(self.statement(2) for _ in range(self.source.randint(3, 7)))
        return f"harness void main({spelt}) {{ {body} assert {self.expr('bit', 2)} || {self.expr('bit', 2)}; }}\n", params

    def text(self):
        """The text, and the types of the parameters of its harness `main`."""
        made = STRUCTS + "".join(self.function(i) for i in range(self.size))
        if self.is_open and self.chance(0.15):
            self.scopes, self.functions, self.result = [{"x": "int", "b": "bit"}], [], "int"
            made += f"int spec(int x, bit b) {{ return {self.expr('int', 2)}; }}\nint sketched(int x, bit b) implements spec {{ return {self.expr('int', 3)}; }}\n"
        main, params = self.harness()
        return made + main, params


class Variants:
    """Writes a text with algebraic types and functions that switch over them."""

    def __init__(self, source):
        self.source = source
        self.count = 0

    def types(self):
        self.adts = []
        for t in range(self.source.randint(1, 2)):
            variants = []
            for v in range(self.source.choice([1, 2, 3, 3, 4, 16]) if self.source.random() < 0.95 else 17):
                fields = [(f"f{k}", self.source.choice(["int", "bit", "int", f"A{t}", f"A{t}", "int[2]"])) for k in range(self.source.choice([0, 1, 2, 3, 16]) if v < 4 else 1)]
                variants.append((f"V{t}x{v}", fields))
            self.adts.append((f"A{t}", variants))

    def value(self, ty, d, names):
        if ty == "int":
            return self.source.choice(["1", "2", "??(2)", "x"] + [n for n, its in names if its == "int"])
        if ty == "bit":
            return self.source.choice(["true", "??", "x == 1"])
        if ty == "int[2]":
            return "{x, 2}"
        if d <= 0:
            return self.source.choice(["null"] + [n for n, its in names if its == ty])
        variants = dict(self.adts)[ty]
        name, fields = self.source.choice(variants)
        given = self.source.sample(fields, self.source.randint(0, min(3, len(fields))))
        return f"new {name}(" + ", ".join(f"{f} = {self.value(its, d - 1, names)}" for f, its in given) + ")"

    def switch(self, name, ty, d):
        variants = list(dict(self.adts)[ty])
        self.source.shuffle(variants)
        cases = []
        for variant, fields in variants[: self.source.randint(1, len(variants))]:
            inside = [f"{name}.{f}" for f, its in fields if its == "int"]
            ways = [f"return {self.source.choice(inside)};" if inside else "return 1;"]
            ways += [f"{name}.{f} = {self.value(its, 1, [])};" for f, its in fields[:3]]
            ways += [f"return worth{ty}({name}.{f}, x) + 1;" for f, its in fields if its == ty]
            if d > 0:
                ways += [f"{{ {its} y{d} = {name}.{f}; {self.switch(f'y{d}', its, d - 1)} }}" for f, its in fields if its == ty][:1]
            cases.append(f"case {variant}: {{ {' '.join(self.source.sample(ways, min(2, len(ways))))} }}")
        return f"switch ({name}) {{ {' '.join(cases)} }}"

    def text(self):
        self.types()
        made = ""
        for name, variants in self.adts:
            made += f"adt {name} {{ " + " ".join(f"{v} {{ {' '.join(f'{ty} {f};' for f, ty in fields)} }}" for v, fields in variants) + " }\n"
        for name, _ in self.adts:
            made += f"int worth{name}({name} e, int x) {{ {self.switch('e', name, self.source.randint(0, 3))} return 0; }}\n"
        calls = " ".join(f"{name} a{i} = {self.value(name, 3, [])}; int r{i} = worth{name}(a{i}, x);" for i, (name, _) in enumerate(self.adts))
        return made + f"harness void main(int x) {{ {calls} assert r0 == x || r0 + ?? == 3; }}\n"


def made(kind, source):
    """A text of a kind: `sketch`, `program` or `algebraic`."""
    if kind == "algebraic":
        return Variants(source).text()
    return Maker(source, kind == "sketch", source.randint(0, 4)).text()[0]


if __name__ == "__main__":
    print(made(sys.argv[1], random.Random(int(sys.argv[2]))), end="")
