#!/usr/bin/env python3
"""Respells this repository's own definitions and lemmas: words in snake case, a dash only between the names of two functions. Run once, at the top, after the kit's port.py.

usage: python3 tools/port_names.py [--check]

What is declared in specs/ and in the lemma files of proofs/ is renamed wherever it is named, in proofs and in the clauses of src/. Functions of src/ keep their names, and so does
what Rattle makes. --check prints the table and the names that would fall together, and writes nothing. The kit's snake.py does the writing.
"""
import collections
import os
import re
import subprocess
import sys
import tempfile

SNAKE = "/opt/rattle/port/notes/2026-11-18-names-are-in-snake-case/snake.py"
STD = set("length take drop map filter append reverse and or not cond eqb ltb leb add mul pow suc get_or sum zip concat all any mod div sub set".split())
DECLARED = re.compile(r"^\s*(?:(?:abbrev|unfoldable|pub|data|record)\s+)*([^\s(){}.;,@\"«»:=]+)\s*:\s", re.M)
WORD = re.compile(r'[^\s(){}.;,@"«»]+')
# lemmas that have, as they stand, the name that a definition gets
LEMMAS = {
    "crates/planning/proofs/Awaited.antt": ["ask_in", "no_end"],
    "crates/cutting/proofs/Cuts.antt": ["cut_short"],
    "crates/cutting/proofs/Rounds.antt": ["cut_short"],
    "crates/judging/proofs/Passes.antt": ["cut_short", "read_opened"],
}


def files():
    for folder, dirs, names in os.walk("crates"):
        dirs[:] = sorted(d for d in dirs if d != "out")
        for name in sorted(names):
            if name.endswith(".antt"):
                yield os.path.join(folder, name)


def made(path):
    """A proof file of a function, in which Rattle names the goals."""
    return os.path.basename(path) in ("Answers.antt", "Invariants.antt", "Proof.antt")


def code(text):
    return re.sub(r"--[^\n]*|\{-.*?-\}", "", text, flags=re.S)


def declared():
    """All that is declared, what of it is a definition, and the names that count as a function's."""
    names, defined, functions = set(), set(), set(STD)
    for path in files():
        text = code(open(path, encoding="utf-8").read())
        for m in DECLARED.finditer(text):
            line = text[m.end() : text.find("\n", m.end())]
            if "goal." in line or (made(path) and m[1].startswith(("invariant-", "decreases-"))):
                continue
            names.add(m[1])
            if "/specs/" in path:
                defined.add(m[1])
                functions.add(spelled(m[1]))
    return names, defined, functions


def spelled(part):
    return part if part[:1].isupper() else re.sub(r"(?<=[a-z0-9])(?=[A-Z])", "_", part).lower().replace("′", "'")


def respelled(name, functions):
    """Each word in snake case; of the dashes, those between two functions' names stay."""
    words = [spelled(w) for w in name.split("-")]
    groups, at = [], 0
    while at < len(words):
        end = next((e for e in range(len(words), at, -1) if "_".join(words[at:e]) in functions), None)
        groups.append(("_".join(words[at:end]) if end else words[at], end is not None))
        at = end or at + 1
    out = groups[0][0]
    for (_, before), (word, after) in zip(groups, groups[1:]):
        out += ("-" if before and after else "_") + word
    return out


def table():
    """A lemma that would get a definition's name gets `_lem` behind it."""
    names, defined, functions = declared()
    rows = {}
    for name in sorted(names):
        if re.fullmatch(r"[a-z][A-Za-z0-9_′'-]*", name):
            new = respelled(name, functions)
            if name not in defined and any(respelled(d, functions) == new for d in defined):
                new += "_lem"
            if new != name and "_lem" not in name and not (name not in defined and new == name + "_lem"):
                rows[name] = new
    return names, rows


def clashes(names, rows):
    by = collections.defaultdict(set)
    for name in names:
        by[rows.get(name, name)].add(name)
    for new, olds in sorted(by.items()):
        if len(olds) > 1:
            yield f"together: {new}: {', '.join(sorted(olds))}"
    for path in files():
        words = set(WORD.findall(code(open(path, encoding="utf-8").read())))
        for old in sorted(words & rows.keys()):
            if rows[old] in words and rows[old] not in names:
                yield f"in one file: {path}: {old} and {rows[old]}"


def main(argv):
    names, rows = table()
    found = list(clashes(names, rows))
    if argv == ["--check"]:
        print("\n".join(f"{a}\t{b}" for a, b in rows.items()))
        print("\n".join(found))
        return
    for path, lemmas in LEMMAS.items():
        if not os.path.exists(path):
            continue
        text = open(path, encoding="utf-8").read()
        for name in lemmas:
            text = re.sub(rf"(?<![\w'-]){name}(?![\w'-])", name + "_lem", text)
        open(path, "w", encoding="utf-8").write(text)
    with tempfile.NamedTemporaryFile("w", suffix=".tsv") as f:
        f.write("".join(f"{a}\t{b}\n" for a, b in rows.items()))
        f.flush()
        subprocess.run([sys.executable, SNAKE, "--table", f.name, "--only", "antt,rt", "crates"], check=True)
    print(f"{len(rows)} names")


if __name__ == "__main__":
    main(sys.argv[1:])
