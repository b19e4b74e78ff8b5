#!/usr/bin/env bash
# Writes the tasks of the program known_plans, and what it must print, which comes from shortest.py and not from the engine.
set -eu
export PYTHONDONTWRITEBYTECODE=1
cd "$(dirname "$0")"
to=../crates/known_plans
mkdir -p "$to/data"
cp task-a.hex blocked.hex hanoi-3.hex hanoi-5.hex "$to/data"
for n in 4 5; do python3 gripper.py "$n" > "$to/data/gripper-$n.hex"; done
for n in 4 6; do python3 ferry.py "$n" > "$to/data/ferry-$n.hex"; done
for n in 4 5; do python3 blocks.py reverse "$n" > "$to/data/blocks-reverse-$n.hex"; done
python3 blocks.py build 5 > "$to/data/blocks-build-5.hex"
python3 blocks.py anomaly > "$to/data/blocks-anomaly.hex"
python3 sliding.py 2 3 4 5 0 1 2 3 > "$to/data/sliding-2x3.hex"
python3 sliding.py 2 3 2 1 3 4 5 0 > "$to/data/sliding-2x3-odd.hex"
python3 sliding.py 2 4 2 1 3 4 5 6 7 0 > "$to/data/sliding-2x4-odd.hex"
(cd "$to/data" && ls) | LC_ALL=C sort > "$to/args"
(cd "$to/data" && xargs python3 "$OLDPWD/shortest.py" < ../args) > "$to/stdout"
