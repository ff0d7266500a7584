#!/usr/bin/env python3
"""Respells the names of this repository's own definitions and lemmas as today's Rattle spells names.

usage: tools/respell.py [--table]      at the top of the repository, once, right after port.py; --table only prints old and new

port.py turns the language and the library's names, and of ours only those that the library has too. This brings the rest to
the same spelling: types are in camel case, all else in snake case. A dash stays where it joins the names of two definitions,
and is else a `_`; a lemma that would then have the name of a definition or of a function of src/ gets `_lem`. Constructors
keep their names (they are spelled as the variants of the code that they stand for), and so do names that Rattle makes from
the code, functions of src/, local names, strings and outputs.
"""
import os
import re
import sys

# What port.py or the rule alone makes of these clashes with a definition that the same file names.
OTHER = {
    "is_open": "open_opened",
    "at_side": "at_side_lem",
    "header_of": "header_of_lem",
    "says_if": "says_if_lem",
    "takes-it": "takes_it_lem",
}

SIGNATURE = re.compile(r"^(\s*)((?:abbrev |unfoldable |pub )*)([^\s:(){}]+) :(?: |$)")
TYPE = re.compile(r"^(\s*)(?:pub )?(data|record) ([^\s:(){}]+)")
TOKEN = re.compile(r"[^\s(){}\[\];,.\"«»`]+")
FUNCTION = re.compile(r"\bfn ([a-z_0-9]+)")
LIBRARY = {"length", "take", "drop", "append", "map", "reverse", "set", "insert", "remove", "suc", "not"}


def files(*suffixes):
    for folder, dirs, names in os.walk("crates"):
        dirs[:] = sorted(d for d in dirs if d != "out")
        for name in sorted(names):
            if name.endswith(suffixes):
                yield os.path.join(folder, name)


def read(path):
    with open(path, encoding="utf-8") as f:
        return f.read()


def snake(name):
    return re.sub(r"(?<=[a-z0-9])([A-Z])", lambda m: "_" + m.group(1).lower(), name)


class Names:
    """The names that are declared in specs/ and proofs/, but for the goals, which Rattle names."""

    def __init__(self):
        self.words, self.lemmas, self.fields, self.types = set(), set(), set(), set()
        for path in files(".antt"):
            inside = None
            for line in read(path).splitlines():
                kind = TYPE.match(line)
                if kind:
                    inside = (len(kind.group(1)), kind.group(2))
                    self.types.add(kind.group(3))
                    continue
                if inside and line.strip() and len(line) - len(line.lstrip()) <= inside[0]:
                    inside = None
                m = SIGNATURE.match(line)
                if not m or ": goal." in line:
                    continue
                if inside:
                    if inside[1] == "record":
                        self.fields.add(m.group(3))
                elif "abbrev" in m.group(2) or "unfoldable" in m.group(2):
                    self.words.add(m.group(3))
                else:
                    self.lemmas.add(m.group(3))


def respelled(name, joined):
    if name[0].isupper():
        return "".join(p[0].upper() + p[1:] for p in name.split("-"))
    parts = [p if p[0].isupper() else snake(p) for p in name.split("-") if p]
    made = parts[0]
    for left, right in zip(parts, parts[1:]):
        made += ("-" if left in joined and right in joined else "_") + right
    return made


def table():
    n = Names()
    taken = {respelled(w, set()) for w in n.words}
    taken |= {f for path in files(".rt") for f in FUNCTION.findall(read(path))}
    joined = taken | LIBRARY
    made = {}
    for name in n.words | n.fields | n.types:
        made[name] = respelled(name, set())
    for name in n.lemmas - set(made):
        new = respelled(name, joined)
        made[name] = new + "_lem" if new in taken and new != name else new
    made.update(OTHER)
    return {old: new for old, new in sorted(made.items()) if old != new}


def turned(text, names, answers):
    def turn(m):
        word, at = m.group(0), m.start()
        if word not in names:
            return word
        # what follows `c.`, `w.` or `l.` in the files of a function's proof is a name that Rattle makes, of snake-case names and dashes
        if answers and re.search(r"(?<![\w'-])[cwl]\.$", text[max(0, at - 3):at]) and snake(word) == word:
            return word
        return names[word]

    return TOKEN.sub(turn, text)


def main():
    names = table()
    if "--table" in sys.argv:
        for old, new in names.items():
            print(old, new)
        return
    for path in files(".antt", ".rt"):
        old = read(path)
        new = turned(old, names, path.count(os.sep) > 3)
        if new != old:
            with open(path, "w", encoding="utf-8") as f:
                f.write(new)


if __name__ == "__main__":
    main()
