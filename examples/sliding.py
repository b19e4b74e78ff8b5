#!/usr/bin/env python3
"""Writes a sliding-tile puzzle as a task text:  sliding.py ROWS COLUMNS TILE..

The tiles are given row by row, 0 for the gap, and are to stand in order with the gap last. A tile beside the gap moves into it.
Half of all layouts cannot be solved: each step swaps two places and moves the gap by one, so parity decides. Of the 360 layouts of
two rows and three columns that can, the farthest takes 21 steps: 4 5 0 1 2 3.
"""
import sys
from tasktext import written


def text(rows, columns, layout):
    cells = range(rows * columns)
    assert sorted(layout) == list(cells)
    beside = [(x, y) for x in cells for y in cells
              if abs(x // columns - y // columns) + abs(x % columns - y % columns) == 1]
    facts = [(tile, cell) for tile in cells for cell in cells]
    actions = [([(tile, x), (0, y)], [(tile, y), (0, x)], [(tile, x), (0, y)]) for tile in cells[1:] for x, y in beside]
    start = [(tile, cell) for cell, tile in enumerate(layout)]
    return written(facts, actions, [(tile, tile - 1) for tile in cells[1:]], start)


if __name__ == "__main__":
    if len(sys.argv) < 4:
        sys.exit(__doc__)
    rows, columns, *layout = map(int, sys.argv[1:])
    sys.stdout.write(text(rows, columns, layout))
