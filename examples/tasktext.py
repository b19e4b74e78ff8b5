"""Writes and reads task texts (docs/RULES.md, Task texts). Used by the generators and by shortest.py."""
from collections import namedtuple

# facts: how many; actions: (pre, add, delete), each a tuple of fact numbers; goal and start: tuples of fact numbers
Task = namedtuple("Task", "facts actions goal start")


def written(facts, actions, goal, start):
    """The text of a task. Facts are any names, in the order of their numbers; an action is (pre, add, delete), lists of names."""
    number = {name: k for k, name in enumerate(facts)}

    def listed(names):
        return sorted(number[name] for name in names)

    frames = [bytes([1, len(facts)]) + len(actions).to_bytes(2, "big")]
    for action in actions:
        lists = [listed(part) for part in action]
        frames.append(bytes([2] + [len(part) for part in lists] + sum(lists, [])))
    frames.append(bytes([3, len(goal)] + listed(goal)))
    frames.append(bytes([4, len(start)] + listed(start)))
    frames.append(bytes([5]))
    return "".join(frame.hex() + "\n" for frame in frames)


def read(text):
    """The task that a text states. The text is taken to be a lawful one."""
    frames = [bytes.fromhex(line) for line in text.splitlines()]
    head, *actions, goal, start, end = frames
    assert head[0] == 1 and len(actions) == int.from_bytes(head[2:4], "big") and goal[0] == 3 and start[0] == 4 and end == b"\x05"
    return Task(head[1], [parts(frame) for frame in actions], tuple(goal[2:]), tuple(start[2:]))


def parts(frame):
    """The three lists of an action's frame."""
    assert frame[0] == 2
    lists, at = [], 4
    for count in frame[1:4]:
        lists.append(tuple(frame[at:at + count]))
        at += count
    return tuple(lists)
