#!/usr/bin/env python3
"""Writes the Towers of Hanoi as a task text.

    hanoi.py DISCS           the text
    hanoi.py DISCS plan      the actions of the shortest plan, by number

Disc 0 is the smallest. What a disc can lie on is a larger disc or one of three pegs. The facts are
"disc d lies on x", by d and then x, and then "nothing lies on x", discs before pegs. The action
"move d from x to y" needs d on x and nothing on d and y, and lists its facts as the text wants them:
rising. All discs begin on peg 0, and peg 2 is where they are to be.
"""
import sys


def places(disc, discs):
    """What a disc can lie on: larger discs, then the pegs."""
    return list(range(disc + 1, discs)) + [discs + peg for peg in range(3)]


def numbered(discs):
    on, clear = {}, {}
    for disc in range(discs):
        for place in places(disc, discs):
            on[disc, place] = len(on)
    for thing in range(discs + 3):
        clear[thing] = len(on) + len(clear)
    return on, clear


def moves(discs):
    return [
        (disc, source, target)
        for disc in range(discs)
        for source in places(disc, discs)
        for target in places(disc, discs)
        if source != target
    ]


def frame(*parts):
    return bytes(parts).hex()


def text(discs):
    on, clear = numbered(discs)
    actions = moves(discs)
    lines = [frame(1, len(on) + len(clear), *len(actions).to_bytes(2, "big"))]
    for disc, source, target in actions:
        pre = sorted([on[disc, source], clear[disc], clear[target]])
        add = sorted([on[disc, target], clear[source]])
        delete = sorted([on[disc, source], clear[target]])
        lines.append(frame(2, len(pre), len(add), len(delete), *pre, *add, *delete))
    last = discs - 1

    def tower(peg):
        return [on[d, d + 1] for d in range(last)] + [on[last, discs + peg]]

    goal = sorted(tower(2))
    start = sorted(tower(0) + [clear[0], clear[discs + 1], clear[discs + 2]])
    lines.append(frame(3, len(goal), *goal))
    lines.append(frame(4, len(start), *start))
    lines.append(frame(5))
    return "".join(line + "\n" for line in lines)


def plan(discs):
    """The shortest plan, by the well-known recursion over the tower's height."""
    number = {move: k for k, move in enumerate(moves(discs))}
    pegs = [list(reversed(range(discs))), [], []]
    steps = []

    def top(peg):
        return pegs[peg][-1] if pegs[peg] else discs + peg

    def shift(height, source, target):
        if height == 0:
            return
        other = 3 - source - target
        shift(height - 1, source, other)
        disc = pegs[source].pop()
        steps.append(number[disc, top(source), top(target)])
        pegs[target].append(disc)
        shift(height - 1, other, target)

    shift(discs, 0, 2)
    return steps


if __name__ == "__main__":
    if len(sys.argv) not in (2, 3) or (len(sys.argv) == 3 and sys.argv[2] != "plan"):
        sys.exit(__doc__)
    if len(sys.argv) == 3:
        print(*plan(int(sys.argv[1])))
    else:
        sys.stdout.write(text(int(sys.argv[1])))
