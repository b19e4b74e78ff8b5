#!/usr/bin/env python3
"""Writes the gripper task as a task text:  gripper.py BALLS

A robot with two grippers carries balls from room a to room b. A gripper holds one ball. A shortest plan picks up and drops every ball
and moves once for each two balls, and back between: 2n + 2*ceil(n/2) - 1 steps for n balls, which is 3n - 1 where n is even.
"""
import sys
from tasktext import written

ROOMS, GRIPPERS = "ab", ("left", "right")


def text(count):
    balls = range(count)
    facts = [("robot", room) for room in ROOMS]
    facts += [("free", gripper) for gripper in GRIPPERS]
    facts += [("in", ball, room) for ball in balls for room in ROOMS]
    facts += [("held", ball, gripper) for ball in balls for gripper in GRIPPERS]
    actions = [([("robot", x)], [("robot", y)], [("robot", x)]) for x, y in ("ab", "ba")]
    for ball in balls:
        for room in ROOMS:
            for gripper in GRIPPERS:
                here, held, free = ("in", ball, room), ("held", ball, gripper), ("free", gripper)
                actions.append(([("robot", room), here, free], [held], [here, free]))
                actions.append(([("robot", room), held], [here, free], [held]))
    start = [("robot", "a")] + [("free", gripper) for gripper in GRIPPERS] + [("in", ball, "a") for ball in balls]
    return written(facts, actions, [("in", ball, "b") for ball in balls], start)


if __name__ == "__main__":
    if len(sys.argv) != 2:
        sys.exit(__doc__)
    sys.stdout.write(text(int(sys.argv[1])))
