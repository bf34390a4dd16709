#!/usr/bin/env python3
"""Tries the grammars for editors on texts of the language: each byte of each token, and of each comment, gets the kind that
the reference's tokenizer (bench/reference/sketch.py) says.

    grammars.py [FILE..]      else each file of examples/ and of bench/sketches, and the blocks of docs/LANGUAGE.md

The TextMate grammar is applied here, by its rules: at each place the first pattern, of those that match earliest. The
Vim syntax file is tried in Vim itself, where `vim` is installed with `+syntax`. The status is 1 where a byte has another kind."""
import json
import pathlib
import re
import shutil
import subprocess
import sys
import tempfile

TOP = pathlib.Path(__file__).resolve().parents[1]
sys.path.insert(0, str(TOP / "bench/reference"))
import sketch  # noqa: E402

GRAMMAR = TOP / "share/grammars/sketch.tmLanguage.json"
VIM = TOP / "share/vim/vimfiles/syntax/sketch.vim"
KEYWORDS = ("storage", "keyword.control", "keyword.other.asked", "keyword.declaration", "keyword.operator.new", "constant.language")
SCOPES = {
    "key": KEYWORDS,
    "word": ("entity.name.function", "variable"),
    "num": ("constant.numeric",),
    "text": ("string",),
    "mark": ("keyword.operator.sketch", "punctuation", "constant.other.placeholder", "keyword.other.pattern"),
    "comment": ("comment",),
}
GROUPS = {
    "key": "Type Modifier Structure Conditional Label Repeat Statement Asked Operator Pragma Constant".split(),
    "word": ["Function", "Name"],
    "num": ["Number"],
    "text": ["String"],
    "mark": ["Mark", "Punctuation", "Hole", "Pattern"],
    "comment": ["Comment", "Result", "Todo"],
}
OF_MARK = {"??": ("placeholder", "Hole"), "{|": ("pattern", "Pattern"), "|}": ("pattern", "Pattern")}


def kinds(text):
    """Each token as (kind, first byte, the one behind it, its spelling), comments too."""
    found = [(kind, a, b, text[a:b]) for kind, _, a, b in sketch.tokens(text)]
    at, comments = 0, []
    for _, a, b, _ in [*found, ("", len(text), 0, "")]:
        for m in re.finditer(r"//[^\n]*|/\*.*?\*/", text[at:a], re.S):
            comments.append(("comment", at + m.start(), at + m.end(), m.group()))
        at = b
    return sorted(found + comments, key=lambda it: it[1])


def flat(patterns, repository):
    for rule in patterns:
        yield from flat(repository[rule["include"][1:]]["patterns"], repository) if "include" in rule else [rule]


def textmate(text, rules):
    """The scope of each byte."""
    scopes, inside = [], None
    for line in text.splitlines(keepends=True):
        names, at = [None] * len(line), 0
        while at < len(line):
            if inside:
                m = re.compile(inside["end"]).search(line, at)
                end = m.end() if m else len(line)
                names[at:end] = [inside["name"]] * (end - at)
                inside, at = (None if m else inside), end
                continue
            hits = [(m.start(), n, m, rule) for n, rule in enumerate(rules) if (m := re.compile(rule.get("match") or rule["begin"], re.M).search(line, at))]
            if not hits:
                break
            start, _, m, rule = min(hits, key=lambda it: it[:2])
            names[start : m.end()] = [rule["name"]] * (m.end() - start)
            inside, at = (rule if "begin" in rule else None), m.end()
        scopes += names
    return scopes


def vim(texts):
    """The group of each byte of each text, asked of Vim."""
    with tempfile.TemporaryDirectory() as folder:
        script = [f"set runtimepath^={VIM.parents[1]}", "syntax on", "filetype on"]
        for n, text in enumerate(texts):
            pathlib.Path(folder, f"{n}.sk").write_text(text)
            script += [f"edit {folder}/{n}.sk", "syntax sync fromstart", "let found = [b:current_syntax]"]
            script += ["for l in range(1, line('$'))", "for c in range(1, len(getline(l)))", "call add(found, synIDattr(synID(l, c, 1), 'name'))", "endfor"]
            script += ["call add(found, '')", "endfor", f"call writefile(found, '{folder}/{n}.out')"]
        pathlib.Path(folder, "all.vim").write_text("\n".join(script + ["qall!"]))
        subprocess.run(["vim", "-N", "-u", "NONE", "-i", "NONE", "-es", "-S", f"{folder}/all.vim"], stdin=subprocess.DEVNULL, timeout=600)
        return [pathlib.Path(folder, f"{n}.out").read_text().split("\n")[1:] for n in range(len(texts))]


def wrong(name, text, names, fits):
    """What is told of tokens whose bytes have another kind."""
    for kind, a, b, spelt in kinds(text):
        for at in range(a, b):
            if not fits(kind, spelt, names[at]) and text[at] not in "\n":
                yield f"{name}, byte {at}: {spelt!r} ({kind}) is {names[at]}"
                break


def fits_scope(kind, spelt, name):
    return name is not None and name.startswith(SCOPES[kind]) and (kind != "mark" or (OF_MARK.get(spelt, ("",))[0] in name and (spelt in OF_MARK or "other" not in name)))


def fits_group(kind, spelt, name):
    return name.removeprefix("sketch") in ([OF_MARK[spelt][1]] if spelt in OF_MARK else GROUPS[kind][: 2 if kind == "mark" else None])


def samples(words):
    if words:
        return [(word, pathlib.Path(word).read_text()) for word in words]
    files = sorted([*TOP.glob("examples/*.sk"), *TOP.glob("bench/sketches/*.sk")])
    page = (TOP / "docs/LANGUAGE.md").read_text()
    blocks = [(f"docs/LANGUAGE.md, byte {m.start()}", m.group(1)) for m in re.finditer(r"^```sketch\n(.*?)^```", page, re.M | re.S)]
    return [(path.name, path.read_text()) for path in files] + blocks


def main(words):
    texts = samples(words)
    grammar = json.loads(GRAMMAR.read_text())
    rules = list(flat(grammar["patterns"], grammar["repository"]))
    told = [line for name, text in texts for line in wrong(name, text, textmate(text, rules), fits_scope)]
    tried = "the TextMate grammar"
    if shutil.which("vim") and "+syntax" in subprocess.run(["vim", "--version"], capture_output=True, text=True).stdout:
        tried += " and the Vim syntax file"
        told += [f"vim: {line}" for (name, text), names in zip(texts, vim([text for _, text in texts])) for line in wrong(name, text, names, fits_group)]
    for line in told:
        print(line)
    tokens = sum(len(kinds(text)) for _, text in texts)
    print(f"grammars: {tried}, {len(texts)} texts, {tokens} tokens and comments, {len(told)} of another kind")
    return 1 if told else 0


if __name__ == "__main__":
    sys.exit(main(sys.argv[1:]))
