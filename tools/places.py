#!/usr/bin/env python3
"""Lists the places of older forms in src/, point by point: python3 tools/places.py [FOLDER] (default: this checkout).

A place is a line of code that a pattern finds, or a pair of functions that differ by a few words, or a fact or a list of
parameters that stands in three functions or more. The patterns find what may be an older form: whether it is one is for
a reader to say, and docs/DESIGN-PASS.md says it of each."""

import collections
import itertools
import pathlib
import re
import sys

ROOT = pathlib.Path(sys.argv[1] if len(sys.argv) > 1 else pathlib.Path(__file__).resolve().parent.parent)

PATTERNS = {
    "1 an enum with a variant for nothing": r"^ +(NotSaid|Nothing|None|Unknown|Never),$",
    "1 a refusal as an Option": r"-> Option<(Fault|Refusal)>",
    "1 an error handed on by hand": r"Err\((\w+)\) => (return )?Err\(|if let Err\(|let Ok\(_\) = ",
    "1 an Option or Result taken apart to answer one": r"let (Some|Ok)\(.*\) = .*else \{\n +return (None|Err\(.*\));|None => None,",
    "1 an Option asked whether it is one": r"if let Some\(_\)|Some\(_\) => |None => (false|true),",
    "1 a number for a refusal, or 0 for none": r"fn number\((self|fault|bytes)|FAULT: u8|fn (damaged|forged|column)\(",
    "1 a flag with a value beside it": r"^ +pub settled: bool,|^ +pub count: usize,",
    "3 a loop over numbers": r"^ *('\w+: )?while |^ *for [a-z]\w* in \(?[\w.]+( \+ 1)?\.\.",
    "3 an index counted out": r"\[(at|i) \+ [0-9]+\]|\bbytes\[at\]|^ +long\[\d\] =|^ +order: \[0, 1",
    "4 equality by a match": r"=> (true|false),$",
    "4 a type that is compared or shown, without its derive": r"#\[derive\(Clone, Copy\)\]",
    "4 a conversion or a spelling by hand": r"fn (number\((self|fault)|kind_byte|kind_in|kind_name|side_of|yes_no|is_digit|hex|nibble)\b",
    "6 a list that is searched by hand": r"fn (is_drawn|position|bytes_of)\(",
    "6 a buffer with a length beside it, or arrays side by side": r"^ +(pub )?(text|order|conns|memory|bits|given|taken): (&'m mut )?(\[|Vec<Entry>)",
    "7 a switch on which half to run": r"Side::Right => (self|halves)",
    "7 a switch on which search to run": r"find\(Wanted::Gone",
}


def sources():
    for path in sorted(ROOT.glob("crates/*/src/**/*.rt")):
        yield path.relative_to(ROOT), path.read_text()


def by_pattern():
    for name, pattern in PATTERNS.items():
        found = []
        for path, text in sources():
            for hit in re.finditer(pattern, text, re.M):
                line = text.count("\n", 0, hit.start() + len(hit.group()) - len(hit.group().lstrip())) + 1
                found.append(f"{path}:{line}")
        yield name, found


FUNCTION = re.compile(r"^( *)(?:pub )?fn (\w+)(.*?)^\1\}", re.M | re.S)


def functions():
    for path, text in sources():
        for hit in FUNCTION.finditer(text):
            yield f"{path.parts[1]}/{path.name}:{hit.group(2)}", hit.group(0)


def words(text):
    return re.findall(r"\w+|[^\w\s]", re.sub(r"//.*", "", text))


def twins():
    """Functions with as many words, of which at most four differ, each always by the same."""
    known = [(name, words(text)) for name, text in functions() if "tests" not in name]
    for (a, x), (b, y) in itertools.combinations(known, 2):
        if len(x) != len(y) or len(x) < 16:
            continue
        pairs = {(p, q) for p, q in zip(x, y) if p != q}
        if len(pairs) <= 4 and all(re.match(r"\w", p + q) for p, q in pairs):
            yield f"{a} = {b} ({', '.join(sorted(p + '/' + q for p, q in pairs))})"


def repeated():
    facts, together = collections.defaultdict(set), collections.defaultdict(set)
    for name, text in functions():
        head = text.split("\n{" if "\n{" in text else "{\n")[0]
        for clause in re.findall(r"(?:requires|ensures)(?: \w+)? \{ (.*) \}$", head, re.M):
            for fact in re.split(r" → | × ", clause):
                if "≤" in fact or "<" in fact or "self.new." in fact:
                    facts[re.sub(r"p\.place|place", "place", fact).strip("()")].add(name)
        given = re.match(r" *(?:pub )?fn \w+(?:<[^(]*>)?\((.*?)\)(?: ->|\n|$| \{)", text, re.S)
        names = [w.split(":")[0].replace("mut ", "").strip() + ":" + w.split(":")[1].strip() for w in re.split(r",(?![^<\[]*[>\]])", given.group(1)) if ":" in w] if given else []
        for pair in itertools.combinations(names, 2):
            together[pair].add(name)
    for what, where in (("5 a fact in three contracts or more", facts), ("5 parameters that travel together", together)):
        yield what, [f"{' , '.join(k) if isinstance(k, tuple) else k}: {len(v)} ({', '.join(sorted(v))})" for k, v in sorted(where.items(), key=str) if len(v) >= 3]


def proofs():
    files = [p for p in sorted(ROOT.glob("crates/*/proofs/**/*.antt"))]
    answers = [p for p in files if p.name in ("Answers.antt", "Invariants.antt")]
    yield "8 files of answers and invariants", [str(len(answers))]
    yield "8 lines of proofs", [str(sum(len(p.read_text().splitlines()) for p in files))]


def main():
    total = collections.Counter()
    for name, found in itertools.chain(by_pattern(), [("2 functions that differ by a few words", list(twins()))], repeated(), proofs()):
        count = int(found[0]) if name[0] == "8" else len(found)
        if name[0] != "8":
            total[name[0]] += count
        print(f"{name}: {count}")
        if name[0] != "8":
            for place in found:
                print(f"    {place}")
    print("by point: " + ", ".join(f"{point}: {total[point]}" for point in sorted(total)))


main()
