#!/usr/bin/env python3
"""Plants the bugs of planted/CRATE.bugs one at a time and compares what the checker says with what stands there.

usage: tools/planted.py [CRATE..] [--only WORD] [--say]
       tools/planted.py --count

Each bug is tried by rt must-fail in a copy of the repository. With --say the answers are printed and compared with nothing;
--only takes the bugs whose names contain WORD; --count prints the numbers of each file, and tries nothing.

A bug is a block of lines, and blocks are parted by an empty line; a line that begins with # is for the reader:
  bug: NAME
  file: src/FILE
  old: TEXT       which stands once in the file, and
  new: TEXT       what takes its place; several pairs of these may follow
  says: WORD ..   what the checker says, of these:
                  src      a fact fails in src/
                  proof    in a proof file, where a fact fails: why: says which
                  shape    in a proof file that no longer fits, which says nothing of the contract
                  limit    at a limit of the prover
                  passes   nothing
  why: TEXT       why a fact fails in a proof file, or why nothing can be said of a bug that passes
  once: WORD      what it said before a contract was made stronger
The first bug of a file is the control, which changes nothing that a contract could speak of.
"""
import re
import shutil
import subprocess
import sys
import tempfile
from collections import Counter
from dataclasses import dataclass, field
from pathlib import Path

TOP = Path(__file__).resolve().parent.parent
WORDS = ("src", "proof", "shape", "limit", "passes")


@dataclass
class Bug:
    name: str
    edit: list = field(default_factory=list)
    says: str = ""
    why: str = ""
    once: str = ""


def bugs_of(crate):
    """Reads the bugs planted in a crate."""
    bugs = []
    for line in (TOP / "planted" / f"{crate}.bugs").read_text().splitlines():
        key, _, text = line.partition(": ")
        if key == "bug":
            bugs.append(Bug(text))
        elif key in ("file", "old", "new") or line == "new:":
            bugs[-1].edit.append(line)
        elif key in ("says", "why", "once"):
            setattr(bugs[-1], key, text)
        elif line and not line.startswith("#"):
            sys.exit(f"planted/{crate}.bugs: a line that isn't read: {line}")
    for bug in bugs:
        if bug.says and bug.says.split()[0] not in WORDS:
            sys.exit(f"planted/{crate}.bugs: {bug.name} says none of {', '.join(WORDS)}")
    return bugs


def copy_with(crate, bugs, to):
    """Copies the repository without what was made of it, with the bugs for the crate's edits."""
    shutil.copytree(TOP, to, ignore=shutil.ignore_patterns(".git", "target", "out"), dirs_exist_ok=True)
    edits = to / "crates" / crate / "must-fail"
    shutil.rmtree(edits, ignore_errors=True)
    edits.mkdir()
    for bug in bugs:
        (edits / f"{bug.name}.edit").write_text("\n".join(bug.edit) + "\n")


def answer(text):
    """Puts what rt says of an edit into the words of the files."""
    if "NOT REFUSED" in text:
        return "passes"
    if "only because a proof file names" in text:
        return "shape"
    if "only by a limit" in text:
        return "limit"
    place = re.search(r"(src|proofs)/\S+?:\d+:\d+", text)
    if "refused, as it must be" not in text or not place:
        return f"bad {text[:300]}"
    clause = re.search(r"\(`([^`]+)`\)|`([\w-]+)`: ", text)
    found = next((it for it in clause.groups() if it), "") if clause else ""
    return f"{'src' if place[1] == 'src' else 'proof'} {place[0]} {found}".strip()


def try_all(crate, bugs):
    """Tries the bugs and gives what was said of each, by its name."""
    with tempfile.TemporaryDirectory(prefix=f"planted-{crate}-") as room:
        copy_with(crate, bugs, Path(room))
        ran = subprocess.run(["rt", "must-fail", crate], cwd=room, capture_output=True, text=True)
    said = re.findall(rf"must-fail {crate}/(\S+)\.edit: (.*(?:\n(?!rt: ).*)*)", ran.stdout + ran.stderr)
    found = {name: answer(text) for name, text in said}
    return {bug.name: found.get(bug.name, "bad no answer: " + ran.stderr[-300:]) for bug in bugs}


def agrees(bug, said):
    """A refusal in a proof file was looked at by a person, who says whether a fact fails there."""
    word, wanted = said.split()[0], bug.says.split()[:1]
    return [word] == wanted or word == "proof" and wanted == ["shape"]


def count():
    print("| crate | planted | refused at once | refused since a contract is stronger | of these in a proof file | only by form, or at a limit | not refused |")
    print("|---|---|---|---|---|---|---|")
    for file in sorted((TOP / "planted").glob("*.bugs")):
        bugs = bugs_of(file.stem)[1:]
        said = Counter(it.says.split()[0] if it.says else "" for it in bugs)
        refused = [it for it in bugs if it.says.startswith(("src", "proof"))]
        since = sum(it.once != "" for it in refused)
        cells = [len(refused) - since, since, said["proof"], said["shape"] + said["limit"], said["passes"]]
        print(f"| `{file.stem}` | {len(bugs)} | {' | '.join(str(it or '') for it in cells)} |")


def run(crates, only, only_say):
    wrong = 0
    for crate in crates:
        bugs = [it for it in bugs_of(crate) if only in it.name]
        said = try_all(crate, bugs)
        for bug in bugs:
            good = agrees(bug, said[bug.name])
            wrong += not good
            print(f"{crate} {bug.name}: {said[bug.name]}{'' if good or only_say else f' (the file says: {bug.says})'}", flush=True)
    return wrong


def main(words):
    if words == ["--count"]:
        return count()
    only_say, only, crates = False, "", []
    while words:
        word = words.pop(0)
        if word == "--say":
            only_say = True
        elif word == "--only" and words:
            only = words.pop(0)
        elif word.startswith("-"):
            sys.exit(__doc__)
        else:
            crates.append(word)
    crates = crates or [it.stem for it in sorted((TOP / "planted").glob("*.bugs"))]
    wrong = run(crates, only, only_say)
    if wrong and not only_say:
        sys.exit(f"{wrong} bugs of which the checker says something else")


if __name__ == "__main__":
    main(sys.argv[1:])
