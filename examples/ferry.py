#!/usr/bin/env python3
"""Writes the ferry task as a task text:  ferry.py CARS

A ferry that holds one car takes the cars from shore a to shore b. A shortest plan boards, sails, debarks and sails back for every car,
without the last sailing back: 4n - 1 steps for n cars.
"""
import sys
from tasktext import written

SHORES = "ab"


def text(count):
    cars = range(count)
    facts = [("ferry", shore) for shore in SHORES] + [("empty",)]
    facts += [("at", car, shore) for car in cars for shore in SHORES] + [("aboard", car) for car in cars]
    actions = [([("ferry", x)], [("ferry", y)], [("ferry", x)]) for x, y in ("ab", "ba")]
    for car in cars:
        for shore in SHORES:
            here = ("at", car, shore)
            actions.append(([("ferry", shore), ("empty",), here], [("aboard", car)], [("empty",), here]))
            actions.append(([("ferry", shore), ("aboard", car)], [("empty",), here], [("aboard", car)]))
    start = [("ferry", "a"), ("empty",)] + [("at", car, "a") for car in cars]
    return written(facts, actions, [("at", car, "b") for car in cars], start)


if __name__ == "__main__":
    if len(sys.argv) != 2:
        sys.exit(__doc__)
    sys.stdout.write(text(int(sys.argv[1])))
