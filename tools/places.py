#!/usr/bin/env python3
"""Lists places in crates/*/src where an older form of code may stand: python3 tools/places.py [POINT], on the tree it is run in.

Points: 1 flags and codes, 2 twins, 3 loops by index, 4 traits by hand, 5 facts and parameters that travel together,
6 buffers with a length beside, 7 switches on a step, 8 lines of proofs. A hit is a candidate; docs/DESIGN-PASS.md says what came of each."""
import collections
import pathlib
import re
import sys

ROOT = pathlib.Path(__file__).resolve().parent.parent
TOKEN = re.compile(r"[A-Za-z_][A-Za-z_0-9]*|\d[\w]*|'[a-z]+\b|\S")
KEEP = {"fn", "let", "mut", "if", "else", "match", "for", "in", "while", "return", "Some", "None", "Ok", "Err", "self", "Self", "true", "false", "impl", "pub"}


def sources():
    for path in sorted(ROOT.glob("crates/*/src/**/*.rt")):
        yield path.relative_to(ROOT), path.read_text()


class Function:
    def __init__(self, path, line, name, params, answer, clauses, body):
        self.path, self.line, self.name, self.params = path, line, name, params
        self.answer, self.clauses, self.body = answer, clauses, body
        self.crate = path.parts[1]

    def __str__(self):
        return f"{self.path}:{self.line} {self.name}"


def closing(text, start, left, right):
    depth = 0
    for i in range(start, len(text)):
        depth += (text[i] == left) - (text[i] == right)
        if depth == 0:
            return i
    return len(text) - 1


def function(path, text, found):
    start = found.end() - 1
    end = closing(text, start, "(", ")")
    params = [" ".join(p.split()) for p in re.split(r",(?![^<(\[]*[>)\]])", text[start + 1: end]) if p.strip()]
    answer, clauses, at = text[end + 1: text.index("\n", end)], [], end
    while True:
        at = text.index("\n", at) + 1
        clause = re.compile(r"\s*(requires|ensures|where)\*?(?: \w+)? (?:\{ (.*) \})?").match(text, at)
        if not clause:
            break
        clauses.append((clause.group(1), clause.group(2)))
    at = text.index("{", at if clauses else end)
    body = text[at: closing(text, at, "{", "}") + 1]
    return Function(path, text.count("\n", 0, found.start()) + 1, found.group(1), params, answer, clauses, body)


def functions():
    for path, text in sources():
        for found in re.finditer(r"\bfn (\w+)(<[^(]*>)?\(", text):
            yield function(path, text, found)


def shape(body):
    names, out = {}, []
    for token in TOKEN.findall(re.sub(r"//[^\n]*", "", body)):
        if re.match(r"\d", token):
            out.append("0")
        elif re.match(r"[A-Za-z_']", token) and token not in KEEP:
            out.append(names.setdefault(token, f"n{len(names)}"))
        else:
            out.append(token)
    return tuple(out)


def report(point, title, hits):
    hits = list(dict.fromkeys(str(hit) for hit in hits))
    print(f"{point} {title}: {len(hits)}")
    for hit in hits:
        print(f"    {hit}")


def lines(pattern, but=None):
    for path, text in sources():
        for number, line in enumerate(text.split("\n"), 1):
            code = line.split("//")[0]
            if re.search(pattern, code) and not (but and re.search(but, code)):
                yield f"{path}:{number} {line.strip()}"


def point1(all):
    report("1a", "enums", lines(r"^\s*(pub(\([a-z]+\))? )?enum "))
    report("1b", "bool answers beside memory that is changed", (f for f in all if any("&mut" in p for p in f.params) and "-> bool" in f.answer))
    report("1c", "results with no error", lines(r"Result<[^=]*, \(\)>"))
    report("1d", "numbers of faults and of kinds", lines(r"\.number\(\) [=!]=|\[[1-6], [a-z_.*]|front\(\d|push\([1-6]\)|^\s*[1-6] =>"))


def point2(all):
    groups = collections.defaultdict(list)
    for f in all:
        s = shape(f.body)
        if len(s) > 12:
            groups[s].append(f)
    twins = [g for g in groups.values() if len(g) > 1]
    report("2a", "functions of one shape", (" = ".join(f"{f.crate}::{f.name}" for f in g) for g in twins))
    names = collections.defaultdict(set)
    for f in all:
        names[f.name].add(str(f.path))
    report("2b", "names that stand in more than one file", (f"{name}: " + ", ".join(sorted(p)) for name, p in sorted(names.items()) if len(p) > 1))
    structs = collections.defaultdict(list)
    for path, text in sources():
        for found in re.finditer(r"struct (\w+)(?:<[^>]*>)? \{\n(.*?)\n\}", text, re.S):
            fields = re.sub(r"//[^\n]*|ghost [^\n]*|pub(\([a-z]+\))? ", "", found.group(2))
            structs[tuple(sorted(re.findall(r"(\w+): ", fields)))].append(f"{path.parts[1]}::{found.group(1)}")
    report("2c", "structs with the same fields", (" = ".join(g) for g in structs.values() if len(g) > 1))


def point3(all):
    report("3a", "while", lines(r"\bwhile\b"))
    report("3b", "for over a range", lines(r"\bfor \w+ in [^{]*\.\."))
    report("3c", "a search or a test that leaves a loop", (f for f in all if re.search(r"\bfor [^\n]*\{\n[^}]*\breturn\b", f.body)))
    report("3d", "a part cut off at each turn", lines(r"^\s*rest = &rest\["))


def point4(all):
    report("4a", "functions that compare", (f for f in all if re.match(r"(same|is_same|equal|before|eq|cmp)", f.name)))
    report("4b", "conversion by From or by hand", lines(r"^impl.* (From|TryFrom)<"))
    report("4c", "printing", lines(r"^impl.* fmt::Display for|^fn tell\w*<"))
    report("4d", "a match that hands an error on", lines(r"Err\((\w+)\) => Err\(\1\)|map_err\(|\|_\| Problem::Memory"))


def point5(all):
    facts = collections.defaultdict(list)
    for f in all:
        for kind, fact in f.clauses:
            if fact:  # a clause of more lines than one is left out
                facts[(f.crate, kind, fact)].append(f.name)
    report("5a", "a clause in three or more functions of a crate", (f"{c}: {k} {{ {x} }}: " + ", ".join(n) for (c, k, x), n in facts.items() if len(n) > 2))
    by_crate = collections.defaultdict(list)
    for f in all:
        by_crate[f.crate].append((f.name, frozenset(p for p in f.params if ":" in p)))
    hits = []
    for crate, items in by_crate.items():
        sets = {a & b for i, (_, a) in enumerate(items) for _, b in items[i + 1:] if len(a & b) > 1}
        sets = [s for s in sets if sum(s <= p for _, p in items) > 2]
        for s in sorted(sets, key=sorted):
            if not any(s < t and sum(s <= p for _, p in items) == sum(t <= p for _, p in items) for t in sets):
                hits.append(f"{crate}: " + ", ".join(sorted(s)) + ": " + ", ".join(n for n, p in items if s <= p))
    report("5b", "parameters that travel together", hits)


def point6(all):
    report("6a", "arrays as buffers", lines(r"\[0(u8)?; \d+\]|: \[u8; (64|1024)\]"))
    report("6b", "places and lengths as fields", lines(r"^\s*(pub(\([a-z]+\))? )?(at|end|start|held|count|used|taken|len): (usize|u8|u64),"))
    report("6c", "a sorted list searched by hand", (f for f in all if re.search(r"\.before\(", f.body) and "for " in f.body))


def point7(all):
    report("7a", "a match of unit variants in two or more functions", lines(r"^\s*Wanted::\w+ =>|Turn::|Ending::"))
    report("7b", "main and run", (f for f in all if f.name in ("main", "run")))


def point8(all):
    for crate in sorted(p.name for p in (ROOT / "crates").iterdir()):
        texts = [p.read_text() for p in (ROOT / "crates" / crate / "proofs").rglob("*.antt")] if (ROOT / "crates" / crate / "proofs").is_dir() else []
        if texts:
            print(f"8 {crate}: {sum(t.count(chr(10)) for t in texts)} lines, {sum(len(re.findall(r'^pub [^ ]+ : goal', t, re.M)) for t in texts)} answers")


def main():
    all = list(functions())
    for number, point in enumerate((point1, point2, point3, point4, point5, point6, point7, point8), 1):
        if len(sys.argv) < 2 or sys.argv[1] == str(number):
            point(all)


main()
