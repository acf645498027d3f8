#!/usr/bin/env python3
"""Brings the names of definitions and lemmas to Rattle's spelling: words in snake case, types in camel case.

usage: tools/respell.py            at the top of the repository, once, after the kit's port.py

A part of a name between dashes and arrows is a word: isTail, letterLength-none and eqPlaces→eq become is_tail, letter_length-none
and eq_places→eq. A definition whose value is a type begins with a capital. In a source file only clauses, ghost lines and comments
have such names, and texts in quotes stay as they are. It prints the names that fall together in one file, or with one that stood.
"""

import collections
import glob
import re

HUMP = re.compile(r"(?<=[a-z0-9])(?=[A-Z])")
QUOTED = re.compile(r'b?"(?:[^"\\]|\\.)*"' + r"|b'(?:[^'\\\n]|\\.)'|'(?:[^'\\\n]|\\.)'", re.S)
IN_A_LINE = re.compile(r'"(?:[^"\\\n]|\\.)*"')
WORD = re.compile(r"(?<![A-Za-z0-9_])[a-z][A-Za-z0-9_]*")
# The files' sources keep every name of std and of the tools that has a capital inside.
KEPT = {"toℕ", "toℤ"}
# Lemmas and constructors whose names would fall together with a definition's, once both are in snake case.
APART = {
    "built_in": "built_in-rows",
    "of_struct": "of-struct",
    "fields_in": "fields_in-map",
    "keys_in": "keys_in-map",
    "listed_in": "listed_in-map",
    "no_room": "no_room-left",
    "put_first": "put_first-set",
    "read_held": "read_held-draft",
    "scalar_size": "scalar_size-drawn",
    "of_length": "of_length-among",
}
LONE = re.compile(r"(?<![\w\-·])(?:(?<!\.)|(?=of_struct))(" + "|".join(APART) + r")(?![\w.\-·'→])")
TYPE = re.compile(r"(?m)^(?:(?:abbrev|unfoldable) )?(?:pub )?([a-z][^\s:(){}.;,=]*) : ([^\n]*(?:\n    [^\n]*)*)$")
BEFORE, AFTER = r"(?<![^\s(){}\[\];,@λ])", r"(?![^\s(){}\[\];,.])"


def snake(text):
    return WORD.sub(lambda m: m.group() if m.group() in KEPT else HUMP.sub("_", m.group()).lower(), text)


def camel(name):
    return "".join(part[0].upper() + part[1:] for part in re.split("[-_]", name))


def outside_quotes(text, turn, quoted):
    out, last = [], 0
    for m in quoted.finditer(text):
        out += [turn(text[last : m.start()]), m.group()]
        last = m.end()
    return "".join(out + [turn(text[last:])])


def types(texts):
    """Returns the lower-case names of definitions that give a type, by the module that has them."""
    found = {}
    for path, text in texts.items():
        if path.endswith(".antt"):
            for m in TYPE.finditer(text):
                if re.search(r"(^|→ )Type( \d)?$", m.group(2).strip()) and not m.group(1).startswith("the_"):
                    found[(path, m.group(1))] = camel(m.group(1))
    return found


def module(path):
    parts = path.split("/")
    return "Rattle." + parts[1] + "." + ".".join(parts[2:]).removesuffix(".antt")


def imports(text):
    return re.findall(r"(?m)^ *(?:ghost )?use ([^\s{};]+)\.\{([^{}]*)\}", text)


def main():
    paths = glob.glob("crates/*/src/**/*.rt", recursive=True) + glob.glob("crates/*/specs/**/*.antt", recursive=True) + glob.glob("crates/*/proofs/**/*.antt", recursive=True)
    texts = {p: open(p, encoding="utf-8").read() for p in sorted(paths)}
    of_types = collections.defaultdict(dict)
    for (path, old), new in types(texts).items():
        of_types[module(path)][old] = new
    for path, text in texts.items():
        here = dict(of_types.get(module(path), {})) if path.endswith(".antt") else {}
        for target, names in imports(text):
            here.update({n.strip(): of_types[target][n.strip()] for n in names.split(",") if n.strip() in of_types.get(target, {})})
        for old, new in sorted(here.items(), key=lambda it: -len(it[0])):
            print(f"type: {path}: {old} {new}")
            # a line that names it in a comment keeps the word
            text = "\n".join(l if l.lstrip().startswith(("--", "//")) else re.sub(BEFORE + re.escape(old) + AFTER, new, l) for l in text.split("\n"))
        if path.endswith(".antt"):
            text = "\n".join(l if l.lstrip().startswith("--") else LONE.sub(lambda m: APART[m.group(1)], l) for l in text.split("\n"))
        turned = outside_quotes(text, snake, QUOTED if path.endswith(".rt") else IN_A_LINE)
        before, after = set(re.findall(r"[^\s(){}.;,]+", text)), collections.defaultdict(set)
        for name in before:
            if not name.startswith(('"', "--")):
                after[snake(name)].add(name)
        for name, olds in sorted(after.items()):
            if len(olds) > 1:
                print(f"look: {path}: {name} was {' and '.join(sorted(olds))}")
        if turned != texts[path]:
            with open(path, "w", encoding="utf-8") as f:
                f.write(turned)


main()
