#!/usr/bin/env python3
"""Runs planner and asker over two pipes, and then the judge, for each number of rounds, and prints a table: showing.py PROGRAMS FOLDER ROUNDS.."""
import filecmp
import os
import subprocess
import sys
import tempfile
import time
from pathlib import Path

sys.dont_write_bytecode = True
sys.path.insert(0, str(Path(__file__).resolve().parent.parent / ".ci"))
from reference import Task

PROGRAMS, FOLDER = (Path(arg).resolve() for arg in sys.argv[1:3])
TASK = Task.read((FOLDER / "task").read_bytes())
BLOCK = 2**24


def draw(name, count):
    with open(name, "wb") as file:
        for size in [BLOCK] * (count // BLOCK) + [count % BLOCK]:
            file.write(os.urandom(size))


def start(program, *args, **how):
    """A program under time, which takes little memory itself: what the system says of a child of this script is never below what this script takes."""
    command = ["/usr/bin/time", "-q", "-f", "%M %U %S", "-o", f"{program}.time", PROGRAMS / program, "--task", FOLDER / "task", *args]
    return subprocess.Popen(command, stderr=subprocess.PIPE, text=True, **how)


def took(program):
    """Seconds of the processor, and the peak memory in KB."""
    memory, user, system = Path(f"{program}.time").read_text().split()
    return f"{float(user) + float(system):.2f}", f"{int(memory):,}"


def must(well, what):
    if not well:
        sys.exit(what)


def row(rounds, what, seconds, processor, memory):
    print(f"| {rounds:>10} | {what:<14} | {seconds:>7} | {processor:>12} | {memory:>7} |")


def showing(rounds):
    """Both sides to the end of a showing, and its last digest."""
    # a few bytes more than the rounds take, since some values are passed over
    draw("planner.drawn", rounds * (4 * (TASK.k - 1) + 32 * TASK.n) + 4096)
    draw("asker.drawn", rounds * 4 + 4096)
    options = lambda name: ["--drawn", f"{name}.drawn", "--rounds", str(rounds), "--book", f"{name}.book", "--words", f"{name}.words"]
    planner_in, asker_out = os.pipe()
    asker_in, planner_out = os.pipe()
    began = time.monotonic()
    planner = start("planner", "--plan", FOLDER / "plan", *options("planner"), stdin=planner_in, stdout=planner_out)
    asker = start("asker", *options("asker"), stdin=asker_in, stdout=asker_out)
    for end in (planner_in, planner_out, asker_in, asker_out):
        os.close(end)
    told = [side.communicate()[1] for side in (planner, asker)]
    seconds = time.monotonic() - began
    must(told[0] == told[1] and told[0].startswith(f"content in all {rounds} rounds\n"), f"planner: {told[0]}asker: {told[1]}")
    must(all(filecmp.cmp(f"planner.{kept}", f"asker.{kept}", shallow=False) for kept in ("book", "words")), "the two sides kept different books or words")
    row(f"{rounds:,}", "showing", f"{seconds:.2f}", "", "")
    for name in ("planner", "asker"):
        row("", name, "", *took(name))
    return told[0].split()[-1]


def judged(digest, what, *handed):
    """The judge on the planner's words, with what else is handed over."""
    began = time.monotonic()
    judge = start("judge", "--words", "planner.words", "--digest", digest, *handed, stdout=subprocess.PIPE)
    told, error = judge.communicate()
    seconds = time.monotonic() - began
    must(judge.returncode == 0, f"judge: {told}{error}")
    row("", what, f"{seconds:.2f}", *took("judge"))


print(f"{TASK.n} trains, {TASK.k} paths, {len(TASK.pairs):,} pairs\n")
row("rounds", "", "seconds", "of processor", "peak KB")
row("-" * 10, "-" * 14, "-" * 7, "-" * 12, "-" * 7)
with tempfile.TemporaryDirectory(dir=FOLDER) as work:
    os.chdir(work)
    for rounds in map(int, sys.argv[3:]):
        digest = showing(rounds)
        judged(digest, "judge", "--plan", FOLDER / "plan", "--drawn", "planner.drawn")
        judged(digest, "judge, no plan")
    os.chdir("/")
