"""Rows of `rows_sym` with 127 functions that call each other, each call so many levels deep in one form of its caller.

    python3 deep_nodes.py LEVELS [FORM..]

Run by the built program under `ulimit -s N` they show how much stack a run over nodes takes."""
import sys

CALLS = 127
INSIDE = {
    "minus": "- %s",
    "right": "x + (%s)",
    "left": "(%s) + x",
    "then": "b ? %s : x",
    "other": "b ? x : %s",
    "index": "v[%s]",
    "slice": "v[%s::1][0]",
}
FORMS = [*INSIDE, "and", "or", "block", "if", "while"]


def nested(form, levels, inner):
    """An expression so deep; a sum and its parentheses are two levels."""
    for _ in range(levels // 2 if form in ("right", "left") else levels):
        inner = INSIDE[form] % inner
    return inner


def joined(form, levels, inner):
    """The same by `&&` or `||`, with parentheses."""
    for _ in range((levels - 1) // 2):
        inner = f"b {'&&' if form == 'and' else '||'} ({inner})"
    return inner


def body(form, levels, inner):
    if form in ("and", "or"):
        return f"bit c = {joined(form, levels, inner + ' == 1')}; return c;"
    if form == "block":
        return "{" * levels + f"return {inner};" + "}" * levels
    if form in ("if", "while"):
        return f"{form} (b) " * levels + f"return {inner}; return 2;"
    return f"return {nested(form, levels, inner)};"


def row(form, levels):
    lines = [f"=== {form}, {levels} levels", "f1", "---", 'pragma options "--bnd-inline-amnt 1";']
    for k in range(1, CALLS + 1):
        inner = f"f{k + 1}(x, b, v)" if k < CALLS else "x"
        lines.append(f"int f{k}(int x, bit b, int[2] v) {{ {body(form, levels, inner)} }}")
    return "\n".join(lines + ["harness void main(int x) { }", "---", " : 1 1 0,1", " : 1 0 0,1", ""])


if __name__ == "__main__":
    for form in sys.argv[2:] or FORMS:
        print(row(form, int(sys.argv[1])))
