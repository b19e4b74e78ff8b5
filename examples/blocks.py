#!/usr/bin/env python3
"""Writes a blocks world as a task text.

    blocks.py build N       all blocks on the table are to be one tower: 2(n - 1) steps, since every block but the lowest is
                            picked up and stacked
    blocks.py reverse N     a tower is to stand upside down: 2n steps, since every block is taken up once and set down once
    blocks.py anomaly       Sussman's anomaly: c on a, b on the table; a on b on c is wanted: 6 steps

A hand takes up or sets down one block: pick up from the table, put down on it, unstack from a block, stack on one.
"""
import sys
from tasktext import written


def text(count, start_towers, goal_towers):
    """Towers are lists of blocks, the lowest first."""
    blocks = range(count)
    pairs = [(x, y) for x in blocks for y in blocks if x != y]
    facts = [("on", x, y) for x, y in pairs] + [(word, x) for word in ("table", "clear", "held") for x in blocks] + [("free",)]
    actions = []
    for x in blocks:
        table, clear, held = ("table", x), ("clear", x), ("held", x)
        actions.append(([table, clear, ("free",)], [held], [table, clear, ("free",)]))
        actions.append(([held], [table, clear, ("free",)], [held]))
    for x, y in pairs:
        on, clear, below, held = ("on", x, y), ("clear", x), ("clear", y), ("held", x)
        actions.append(([on, clear, ("free",)], [held, below], [on, clear, ("free",)]))
        actions.append(([held, below], [on, clear, ("free",)], [held, below]))
    stacked = [("on", x, y) for tower in start_towers for y, x in zip(tower, tower[1:])]
    start = stacked + [("table", tower[0]) for tower in start_towers] + [("clear", tower[-1]) for tower in start_towers] + [("free",)]
    goal = [("on", x, y) for tower in goal_towers for y, x in zip(tower, tower[1:])]
    return written(facts, actions, goal, start)


def asked(words):
    if words == ["anomaly"]:
        return text(3, [[0, 2], [1]], [[2, 1, 0]])
    if len(words) == 2 and words[0] in ("build", "reverse"):
        tower = list(range(int(words[1])))
        return text(len(tower), [[x] for x in tower] if words[0] == "build" else [tower[::-1]], [tower])
    sys.exit(__doc__)


if __name__ == "__main__":
    sys.stdout.write(asked(sys.argv[1:]))
