"""Lists the places in src/ that an older form of the language left: usage: places.py [ROOT] [-v]
For each point it prints a count of candidates, and with -v each one. It goes by text, so a candidate is a place to read:
docs/DESIGN-PASS.md says which are places, and what became of them."""

import collections
import pathlib
import re
import sys

TOKEN = re.compile(r"[A-Za-z_][A-Za-z0-9_]*|[0-9][0-9_]*|b?\"(?:\\.|[^\"\\])*\"|b?'(?:\\.|[^'\\])'|[^\sA-Za-z0-9_]")
WORDS = set("fn let mut if else match for while loop in return break continue struct enum impl pub self Self ref as true false const".split())


def code_of(text):
    """The text without comments; lines stay."""
    return re.sub(r"//[^\n]*", "", text)


def close(text, at):
    """The place after the brace that closes the one at `at`."""
    depth = 0
    for i in range(at, len(text)):
        if text[i] == "{":
            depth += 1
        elif text[i] == "}":
            depth -= 1
            if depth == 0:
                return i + 1
    return len(text)


class Function:
    def __init__(self, file, line, name, head, clauses, body):
        self.file, self.line, self.name, self.head, self.clauses, self.body = file, line, name, head, clauses, body

    def __str__(self):
        return f"{self.file}:{self.line} {self.name}"


def functions_of(file, text):
    for m in re.finditer(r"\bfn (\w+)", text):
        at = m.end()
        depth = 0
        while at < len(text) and (depth or text[at] not in "{;") and not re.match(r"(requires|ensures)\b", text[at:]):
            depth += (text[at] in "([") - (text[at] in ")]")
            at += 1
        head = text[m.start():at]
        clauses = []
        while (c := re.match(r"\s*(requires|ensures)\*?\s*(\w+)?\s*(?=\{)", text[at:])):
            start = at + c.end()
            end = close(text, start)
            clauses.append((c[1], " ".join(text[start + 1:end - 1].split())))
            at = end
        rest = re.match(r"\s*", text[at:]).end()
        at += rest
        body = text[at:close(text, at)] if at < len(text) and text[at] == "{" else ""
        yield Function(file, text.count("\n", 0, m.start()) + 1, m[1], head, clauses, body)


def shape(body):
    """The body with names, numbers and texts blanked, in the order in which they first occur."""
    names = {}
    out = []
    for t in TOKEN.findall(body):
        if t in WORDS or not re.match(r"[\w\"']", t):
            out.append(t)
        else:
            out.append("%" + str(names.setdefault(t, len(names))))
    return tuple(out)


def lines_with(files, pattern):
    for file, text in files:
        for i, line in enumerate(text.split("\n"), 1):
            if re.search(pattern, line) and "ghost use" not in line:
                yield f"{file}:{i} {line.strip()}"


def whole_with(files, pattern):
    for file, text in files:
        for m in re.finditer(pattern, text):
            yield f"{file}:{text.count(chr(10), 0, m.start()) + 1} {' '.join(m[0].split())}"


def points(files, functions):
    point = collections.OrderedDict()
    point["1 handed on by hand (`?`)"] = list(whole_with(files, r"(Err\((\w+)\) => (return )?Err\(\2\)|Some\((\w+)\) => Some\(\4\)|None => (return )?(None\b|\w+::NotACall)|if let Some\((\w+)\) = [^;]*?\{\s*return (Err|Some)\(|else \{\s*return (None|\w+::NotACall))"))
    point["1 a flag beside a value, or a flag as a fault"] = list(lines_with(files, r"\(\w+, bool\)|Result<bool|, bool\)>|Option<bool>"))
    point["1 a case that stands for a fault or for nothing"] = list(lines_with(files, r"^\s*(NotACall|NoSlip|Nothing|Refused\(|No\b)"))
    point["1 numbers for kinds, refusals or nothing"] = list(lines_with(files, r"\b(refusal|rule): u\d+|fn (case|value|number|atom|named)\b|-> u8\b|\[u64; 6\]|fn (length_before|first_level)\b.*-> usize"))
    twins = collections.defaultdict(list)
    for f in functions:
        s = shape(f.body)
        if len(s) >= 14:
            twins[s].append(f)
    point["2 bodies of one shape"] = [" = ".join(map(str, fs)) for fs in twins.values() if len(fs) > 1]
    names = collections.defaultdict(list)
    for f in functions:
        if f.body:
            names[f.name].append(f)
    point["2 names that stand in two crates"] = [" = ".join(map(str, fs)) for n, fs in sorted(names.items())
        if len({f.file.split("/")[1] for f in fs}) > 1 and n not in ("main", "new", "fmt", "from", "len", "clear", "push", "pop", "drop")]
    point["3 loops by while"] = list(lines_with(files, r"\bwhile\b"))
    point["3 loops over numbers"] = list(lines_with(files, r"\bfor \w+ in [^{]*\.\."))
    point["3 searches by hand"] = [str(f) for f in functions if re.search(r"\bfor\b[^{]*\{[^}]*\bif\b[^{]*\{\s*return (true|false|Some|i;|Ok)", f.body)]
    point["4 compared or sorted by hand"] = list(lines_with(files, r"\.(name|arity|missing|atom\(\)|number\(\)) [!=]= \w|fn (same|same_word|refers_to|is_functor|is_digit|named)\b"))
    point["4 results turned by hand"] = list(whole_with(files, r"Err\((\w+)\) => Answer::Refused\(\1\)|Ok\(true\) => \S+|fn (plain|verdict|answer_of)\b[^{]*Result"))
    point["4 bytes as numbers"] = list(lines_with(files, r"[=<>!]= (1\d|3\d|4\d|5\d)\b|\[\d\d, |\b(32|48|45|35|57|58)[,)\]]| < 58| < 48| > 57|- 48\b"))
    clauses = collections.defaultdict(set)
    for f in functions:
        for kind, clause in f.clauses:
            clauses[re.sub(r"\.(now|old|new|entry)\b", "", clause)].add(str(f))
    point["5 clauses that stand in three functions or more"] = [f"{len(fs)}: {c}" for c, fs in sorted(clauses.items(), key=lambda x: -len(x[1])) if len(fs) > 2]
    groups = collections.defaultdict(set)
    for f in functions:
        params = re.findall(r"(\w+): (&?(?:mut )?[A-Z]\w*(?:<[^>]*>)?)", re.sub(r"^fn \w+(<[^(]*>)?", "", f.head))
        for i, p in enumerate(params):
            for q in params[i + 1:]:
                groups[(p, q)].add(str(f))
    point["5 parameters that travel together in three functions or more"] = [f"{len(fs)}: {p[0]}: {p[1]}, {q[0]}: {q[1]}" for (p, q), fs in sorted(groups.items(), key=lambda x: -len(x[1])) if len(fs) > 2]
    point["6 fixed arrays, and lengths beside them"] = list(lines_with(files, r"^\s*(pub )?(pub\(\w+\) )?\w+: (\[\w+; |Stack<|Table\b)|^\s*(len|waits|count): u"))
    point["7 structs that carry only a function, and their trait"] = list(lines_with(files, r"^(pub )?struct \w+;|trait Places"))
    point["7 switches on which step to run"] = list(lines_with(files, r"match (rule|request|call|part|item) \{|match \(first, only\)"))
    return point


def main():
    args = [a for a in sys.argv[1:] if a != "-v"]
    root = pathlib.Path(args[0] if args else ".")
    paths = sorted(root.glob("crates/*/src/**/*.rt"))
    files = [(str(p.relative_to(root)), code_of(p.read_text())) for p in paths]
    functions = [f for file, text in files for f in functions_of(file, text)]
    print(f"{len(files)} files, {len(functions)} functions, {sum(t.count(chr(10)) for _, t in files)} lines")
    for name, found in points(files, functions).items():
        print(f"{len(found):4} {name}")
        if "-v" in sys.argv:
            for f in found:
                print("       " + f)
    proofs = list(root.glob("crates/*/proofs/**/*.antt"))
    print(f"{sum(p.read_text().count(chr(10)) for p in proofs)} lines of proofs, {sum(p.name == 'Answers.antt' for p in proofs)} files of answers (8)")


main()
