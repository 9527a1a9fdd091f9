#!/usr/bin/env python3
"""Brings the repository's own definitions and lemmas to one spelling, once: usage: tools/respell.py [--dry], at the top of the repository.

Words are in snake case, types in upper camel case. `sameClass` becomes `same_class`, the lemma `memo-right` `memo_right`, the
statement `Memo-right` `MemoRight`. A lemma named by a type and a word, as `Rules-prop`, keeps its dash.
Only names that a file of specs/ or proofs/ declares are changed, as whole words, in .rt, .antt and .edit files of crates/ and
between backticks in the pages. Names that Rattle makes (answers of goals, steps behind a dot), names that a file takes from the library, strings, and words
with a dash in comments are left alone. Where a lemma would take the name of a definition, it gets `_lem`.
"""

import os
import re
import sys

LETTER = r"A-Za-z0-9_'\-κμΣ·◌"
WORD = re.compile(rf"(?<![{LETTER}])([A-Za-z][A-Za-z0-9_'\-]*)(?![{LETTER}])")
STRING = re.compile(r'b?"(?:\\.|[^"\\])*"')
DECLARED = re.compile(r"^(\s*)(?:abbrev |unfoldable |pub |mutual )*(?:(record|data) )?(?:pub )?([A-Za-z][A-Za-z0-9_'\-]*)(?= [^=:]*:| :)")
CRATES = set(os.listdir("crates"))
# Names that would fall together with a field of a record of the code.
CHOSEN = {"heap-tops": "heap_tops_count", "trail-tops": "trail_tops_count"}
# Lemmas whose names a definition takes now.
YIELD = {"in_place", "is_pointer", "line_read", "with_cell"}


def files(ends):
    for folder, dirs, names in os.walk("crates"):
        dirs[:] = sorted(d for d in dirs if d != "out")
        for n in sorted(names):
            if n.endswith(ends):
                yield os.path.join(folder, n)


def read(path):
    with open(path, encoding="utf-8") as f:
        return f.read()


def snake(name):
    name = name.replace("-", "_")
    name = re.sub(r"([a-z0-9])([A-Z])", r"\1_\2", name)
    return name.lower()


def camel(name):
    return "".join(p[:1].upper() + p[1:] for p in name.split("-"))


def declared():
    """Each declared name: whether it is a type; and the names of fields."""
    names, fields = {}, set()
    for path in files(".antt"):
        lines = read(path).split("\n")
        above = []
        for at, line in enumerate(lines):
            if line.strip():
                indent = len(line) - len(line.lstrip())
                above = [a for a in above if a[0] < indent] + [(indent, line.strip())]
            m = DECLARED.match(line)
            if not m or line.lstrip().startswith(("use ", "--", "let ", "record {", "elim ")):
                continue
            deep, kind, name = len(m[1]), m[2], m[3]
            text = line
            for more in lines[at + 1 :]:
                if not more.strip() or len(more) - len(more.lstrip()) <= deep:
                    break
                text += " " + more.strip()
            if re.search(r": goal\.", text) or re.search(r": given\.", text):
                continue
            is_type = bool(kind) or bool(re.search(r"(→|:)\s*Type( \d+)?\s*(where.*)?$", text))
            names.setdefault(name, set()).add(is_type)
            if len(above) > 1 and re.match(r"(pub )?record ", above[-2][1]):
                fields.add(name)
    return names, fields


def spelled(name, is_type):
    if name in CHOSEN:
        return CHOSEN[name]
    if is_type or (name[0].isupper() and "-" not in name):
        return camel(name)
    if name[0].isupper():
        head, rest = name.split("-", 1)
        return head + "-" + snake(rest)
    return snake(name.replace("getD", "get-or"))


def outside(text):
    """The names that a file takes from the library."""
    names = set()
    for m in re.finditer(r"^(?:ghost )?(?:pub )?use ([A-Za-z0-9_.+'\-]+)\.\{([^}]*)\}", text, re.M):
        parts = m[1].split(".")
        if parts[0] != "Rattle" or parts[1] not in CRATES:
            for n in m[2].split(","):
                names.add(n.split(" as ")[-1].strip())
                names.add(n.split(" as ")[0].strip())
    return names


def turn(text, table, fields):
    theirs = outside(text)

    def one(m):
        w = m[1]
        line = text[text.rfind("\n", 0, m.start()) + 1 : m.start()].lstrip()
        if w[0].islower() and "-" in w and line.startswith(("--", "//")):
            return w
        if w not in table or w in theirs or ("-" in w and text[max(m.start() - 1, 0) : m.start()] == "." and w not in fields):
            return w
        return table[w]

    return WORD.sub(one, text)


def turn_rt(text, table, fields):
    theirs = outside(text)
    table = {o: n for o, n in table.items() if o not in theirs}
    out, last = [], 0
    for m in STRING.finditer(text):
        out.append(turn(text[last : m.start()], table, fields))
        out.append(m[0])
        last = m.end()
    out.append(turn(text[last:], table, fields))
    return "".join(out)


def main():
    dry = "--dry" in sys.argv
    names, fields = declared()
    table = {}
    for name, kinds in sorted(names.items()):
        if kinds == {True, False}:
            print("both a type and a word:", name)
        new = spelled(name, True in kinds)
        if new != name:
            table[name] = new
    lemmas = {name: name + "_lem" for name in YIELD}
    taken = {}
    for old in sorted(table, key=lambda n: ("-" in n, n)):
        new = table[old]
        if new in taken or (new in names and new not in YIELD):
            print("falls together:", old, "and", taken.get(new, new), "->", new)
            if "-" in old:
                table[old] = new = new + "_lem"
        taken[new] = old
    print(len(table), "names")
    if dry:
        for o, n in sorted(table.items()):
            print("   ", o, n)
        return
    for path in files((".antt", ".rt", ".edit")):
        old = read(path)
        new = turn_rt(old, table, fields) if path.endswith((".rt", ".edit")) else turn(old, table | lemmas, fields)
        if new != old:
            with open(path, "w", encoding="utf-8") as f:
                f.write(new)
    pages = ["README.md"] + [os.path.join("docs", n) for n in sorted(os.listdir("docs")) if n.endswith(".md")]
    for path in pages:
        old = read(path)
        new = re.sub(r"`[^`\n]+`", lambda m: turn(m[0], table, fields), old)
        if new != old:
            with open(path, "w", encoding="utf-8") as f:
                f.write(new)


if __name__ == "__main__":
    main()
