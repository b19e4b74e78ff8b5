#!/usr/bin/env python3
"""Tells of task texts what planning must answer, by breadth-first search:  shortest.py FILE..

A line a file: h_add and h_max of the start, and the length of a shortest plan, or no plan, or rows full. It is the expected output of
the program known_plans, and shares nothing with the engine but the format of task texts.
"""
import os
import sys
from tasktext import read

ROWS = 1024  # as many states the engine's search may record


def mask(facts):
    return sum(1 << fact for fact in facts)


def successors(task, state):
    for number, (pre, add, delete) in task.masks:
        if state & pre == pre:
            yield number, state & ~delete | add


class Search:
    """A task with its lists as sets of bits."""

    def __init__(self, task):
        self.task = task
        self.masks = [(k, tuple(map(mask, action))) for k, action in enumerate(task.actions)]
        self.start, self.goal = mask(task.start), mask(task.goal)

    def layers(self):
        """All reachable states, each with the state and the action that it was first reached by; breadth first."""
        came = {self.start: None}
        layer = [self.start]
        while layer:
            following = []
            for state in layer:
                for number, after in successors(self, state):
                    if after not in came:
                        came[after] = (state, number)
                        following.append(after)
            layer = following
        return came

    def plan(self, came):
        """A shortest plan: states come breadth first, so the first with the goal is a nearest one."""
        for state in came:
            if state & self.goal == self.goal:
                steps = []
                while came[state]:
                    state, number = came[state]
                    steps.append(number)
                return steps[::-1]
        return None

    def recorded(self):
        """States that a search without a plan must record, counted until they outnumber the rows (see the comment in `ending`)."""
        seen, todo = {self.start}, [self.start]
        while todo and len(seen) <= ROWS:
            state = todo.pop()
            if costs(self.task, state, max)[1] is not None:
                for _, after in successors(self, state):
                    if after not in seen:
                        seen.add(after)
                        todo.append(after)
        return len(seen)


def costs(task, state, joined):
    """What each fact costs from a state, and what the goal does: the least solution, reached by lowering costs until none falls.
    `joined` makes one cost of several, sum for h_add and max for h_max; None is out of reach."""
    cost = {fact: 0 for fact in range(task.facts) if state >> fact & 1}

    def over(facts):
        return joined([cost[fact] for fact in facts] or [0]) if all(fact in cost for fact in facts) else None

    falling = True
    while falling:
        falling = False
        for pre, add, _ in task.actions:
            price = over(pre)
            for fact in add if price is not None else ():
                if fact not in cost or price + 1 < cost[fact]:
                    cost[fact] = price + 1
                    falling = True
    return cost, over(task.goal)


def replayed(task, steps):
    """Whether the steps are a plan, tried out on a set of facts."""
    standing = set(task.start)
    for number in steps:
        pre, add, delete = task.actions[number]
        if not standing.issuperset(pre):
            return False
        standing = standing - set(delete) | set(add)
    return standing.issuperset(task.goal)


def ending(task):
    # Which answer is forced. The engine's search may meet states in another order, but:
    # - Where there is a plan and at most ROWS states can be reached, every state has room, and the answer is a shortest plan.
    #   With more states the answer would hang on the order, so such a task is refused here.
    # - Where there is no plan, the search ends with "no plan" only after it has opened every recorded state whose h_max is not none,
    #   and recorded all their successors. So it then has recorded the start and all states that are reached through states whose h_max
    #   is not none, and it records no others. If these are at most ROWS the answer is "no plan", since there was room for all;
    #   if they are more, it cannot be, and "rows full" is the only answer left.
    search = Search(task)
    came = search.layers()
    steps = search.plan(came)
    if steps is None:
        if search.recorded() > ROWS:
            return f"all {ROWS} rows are full before a plan was found"
        return "there is no plan"
    if len(came) > ROWS:
        sys.exit(f"{len(came)} states can be reached: the answer is not forced")
    assert replayed(task, steps)
    return f"a shortest plan has {len(steps)} steps, and rehearses as a plan"


def told(value):
    return "none" if value is None or value > 1_000_000 else value


def line(name):
    with open(name) as file:
        task = read(file.read())
    start = mask(task.start)
    add, largest = costs(task, start, sum)[1], costs(task, start, max)[1]
    return f"{os.path.basename(name)}: goal figure additive {told(add)}, max {told(largest)}; {ending(task)}"


if __name__ == "__main__":
    if len(sys.argv) < 2:
        sys.exit(__doc__)
    for name in sys.argv[1:]:
        print(line(name))
