#!/usr/bin/env python3
"""Makes a task of 300 trains, 12 paths and 2,000 pairs with a plan that fits it: large.py FOLDER"""
import random
import sys
from pathlib import Path

sys.dont_write_bytecode = True
sys.path.insert(0, str(Path(__file__).resolve().parent.parent / ".ci"))
from reference import Task, plan_word

TRAINS, PATHS, PAIRS = 300, 12, 2000
folder, chance = Path(sys.argv[1]), random.Random(5)
plan = [chance.randrange(PATHS) for _ in range(TRAINS)]
apart = [(a, e) for a in range(TRAINS) for e in range(a + 1, TRAINS) if plan[a] != plan[e]]
folder.mkdir(parents=True, exist_ok=True)
(folder / "task").write_bytes(Task(TRAINS, PATHS, sorted(chance.sample(apart, PAIRS))).word())
(folder / "plan").write_bytes(plan_word(plan))
