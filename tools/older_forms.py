#!/usr/bin/env python3
"""Lists the places in crates/*/src that have the look of an older Rattle, by kind:

    python3 tools/older_forms.py [KIND]     every place, a line each, and the counts
    python3 tools/older_forms.py --counts   the counts alone

A row is a place to look at, and no verdict: docs/DESIGN-PASS.md says of each what was done with it.
"""
import collections
import glob
import re
import sys

SIGNATURE = re.compile(r"\bfn (\w+)")


def files():
    for path in sorted(glob.glob("crates/*/src/**/*.rt", recursive=True)):
        yield path, open(path).read().split("\n")


def crate(path):
    return path.split("/")[1]


def code(line):
    return re.sub(r"//.*", "", line)


def functions(path, lines):
    """Each function with its head (signature and clauses) and its body."""
    i = 0
    while i < len(lines):
        found = SIGNATURE.search(code(lines[i]))
        if not found:
            i += 1
            continue
        head, j = [], i
        while j < len(lines) and lines[j].strip() not in ("{", "{}") and not lines[j].rstrip().endswith(";"):
            head.append(lines[j])
            if re.search(r"\{\s*$", lines[j]) and "fn " in lines[j] and not re.search(r"(requires|ensures)", lines[j]):
                break
            j += 1
        indent = len(lines[i]) - len(lines[i].lstrip())
        body, k = [], j
        while k < len(lines):
            body.append(lines[k])
            if lines[k].startswith(" " * indent + "}"):
                break
            if lines[k].rstrip().endswith(";") and k == j:
                break
            k += 1
        yield i, found.group(1), head, body
        i = max(k, i) + 1


def one():
    """Shapes of Option and Result, flags, numbers for kinds."""
    for path, lines in files():
        text = "\n".join(lines)
        for m in re.finditer(r"enum (\w+)[^{]*\{(.*?)\n\}", text, re.S):
            names = re.findall(r"^\s{4}(\w+)[({,\s]", re.sub(r"//.*", "", m.group(2)), re.M)
            if any(n in ("None", "Nothing", "Missing", "Absent", "Unknown") for n in names) and "Fault" not in m.group(1):
                yield path, text[: m.start()].count("\n") + 1, f"enum {m.group(1)} has a variant for nothing"
        for n, line in enumerate(lines, 1):
            c = code(line)
            if re.match(r"\s+(pub(\(crate\))? )?\w+: bool,", c):
                yield path, n, "field: " + c.strip()
            elif re.search(r"\b(kind|status|code|rule|queue|estimator)\w*: u(8|16|32)\b|\bnumber: u8\b", c) and "first_from" not in c:
                yield path, n, "number for a kind: " + c.strip()
            elif re.search(r"\bfn (number|\w+_number|refused|\w*status)\(.*->.*u8", c):
                yield path, n, "kind told as a number: " + c.strip()
            elif re.search(r"pub fn \w+\(\) -> u8$", c):
                yield path, n, "answer without a meaning: " + c.strip()
            elif re.search(r"\b(MAX|0)\) *// *none", c):
                yield path, n, "sentinel: " + c.strip()
        for i, name, head, _ in functions(path, lines):
            sig = " ".join(code(h) for h in head).split(" requires ")[0].split(" ensures ")[0]
            for m in re.finditer(r"(\w+): bool\b", sig):
                yield path, i + 1, f"parameter of {name}: {m.group(0)}"
    for path, lines in files():
        if crate(path) == "rows":
            for n, line in enumerate(lines, 1):
                if re.match(r"\s+pub(\(crate\))? (off|on): u16,", line):
                    yield path, n, "sentinel (0 is nowhere): " + line.strip()


def shape(body):
    text = "\n".join(code(b).strip() for b in body if code(b).strip())
    text = re.sub(r'"[^"]*"', '"s"', text)
    text = re.sub(r"\b\d[\d_xa-f]*\b", "0", text)
    return re.sub(r"\b[a-z_A-Z]\w*\b", lambda m: m.group(0) if m.group(0) in KEYWORDS else "n", text)


KEYWORDS = set("if else match for in while let mut return Some None Ok Err true false as self loop break".split())


def two():
    """Functions of one shape, and functions that only repeat another."""
    shapes = collections.defaultdict(list)
    for path, lines in files():
        for i, name, head, body in functions(path, lines):
            inner = [b for b in body if code(b).strip() not in ("", "{", "}", "{}")]
            if len(inner) >= 2:
                shapes[shape(inner)].append((path, i + 1, name))
            elif len(inner) == 1:
                m = re.match(r"\s*(?:self\.\w+\.)?(\w+)\((self|task|[a-z_]+)(, [a-z_&]+)*\);?$", code(inner[0]))
                if m and m.group(1) not in ("Ok", "Some", "Err", "println"):
                    yield path, i + 1, f"{name} only repeats {m.group(1)}"
    for body, places in shapes.items():
        if len(places) > 1 and len(body) > 24:
            for path, n, name in places:
                others = ", ".join(f"{crate(p)}::{o}" for p, k, o in places if (p, k) != (path, n))
                yield path, n, f"{name} has the shape of {others}"


def three():
    """Loops that count an index, and other loops by hand."""
    for path, lines in files():
        for n, line in enumerate(lines, 1):
            c = code(line)
            if re.search(r"\bfor \w+ in [\w(].*\.\.", c):
                yield path, n, c.strip()
            elif re.search(r"^\s*while |\bloop \{", c):
                yield path, n, c.strip()


def four():
    """Equality, order, conversion and printing by hand."""
    for path, lines in files():
        for n, line in enumerate(lines, 1):
            c = code(line)
            if re.search(r"^impl.* (PartialEq|Eq|PartialOrd|Ord|Clone|Copy|Default|Debug|Key) for", c):
                yield path, n, c.strip()
            elif re.search(r"\bfn (same\w*|at_most\w*|\w*_numbered|number_of|larger\w*|smaller\w*|one_more|plus|list_of|list|way_of)\b", c):
                yield path, n, c.strip()
            elif re.search(r"\bfn (tell\w*|meaning|unit|\w*_words)\(", c):
                yield path, n, "printing: " + c.strip()
            elif re.search(r"struct \w+(<[^>]*>)?\(pub ", c):
                yield path, n, "wrapper: " + c.strip()


def five():
    """Facts in three contracts or more, and parameters that travel together in three functions or more."""
    facts = collections.defaultdict(set)
    groups = collections.defaultdict(set)
    for path, lines in files():
        for i, name, head, body in functions(path, lines):
            for h in head:
                m = re.match(r"\s*(requires|ensures)\s+(\w+ )?\{(.*)\}\s*$", h)
                if m:
                    facts[(crate(path), m.group(1), m.group(3).strip())].add((path, i + 1, name))
            sig = " ".join(code(h).strip() for h in head)
            sig = re.split(r" (?:requires|ensures) ", sig)[0]
            params = re.findall(r"(\w+): (&?(?:mut )?[\w<>\[\], ]+?)(?=, \w+:|,? ?\))", sig)
            for a, b in zip(params, params[1:]):
                groups[(crate(path), a, b)].add((path, i + 1, name))
    for (c, kind, fact), places in sorted(facts.items()):
        if len(places) >= 3:
            path, n, _ = sorted(places)[0]
            yield path, n, f"{kind} of {len(places)} functions: {fact[:90]}"
    for (c, a, b), places in sorted(groups.items()):
        if len(places) >= 3:
            path, n, _ = sorted(places)[0]
            yield path, n, f"{a[0]}, {b[0]} travel together in {len(places)} functions: " + ", ".join(sorted(x[2] for x in places))


def six():
    """Buffers with a length beside them, and parallel arrays."""
    for path, lines in files():
        text = "\n".join(re.sub(r"//.*", "", x) for x in lines)
        for m in re.finditer(r"struct (\w+)[^{;]*\{(.*?)\n\}", text, re.S):
            fields = [f for f in m.group(2).split("\n") if f.strip() and "ghost" not in f]
            arrays = [f.strip() for f in fields if re.search(r": (\[|Vec<)", f)]
            counts = [f.strip() for f in fields if re.search(r"\b(count|size|len|length|used)\b: u", f)]
            n = text[: m.start()].count("\n") + 1
            if arrays and counts:
                yield path, n, f"{m.group(1)}: {', '.join(arrays)} with {', '.join(counts)}"
            if len(arrays) > 1:
                yield path, n, f"{m.group(1)}: side by side {', '.join(arrays)}"
        for i, name, head, _ in functions(path, lines):
            sig = re.split(r" (?:requires|ensures) ", " ".join(code(h).strip() for h in head))[0]
            if re.search(r": &(mut )?\[[^\]]+\].*\b(count|size|n|used|length): (&mut )?usize", sig):
                yield path, i + 1, f"{name} takes a slice and a length"


def seven():
    """Switches on which step to run."""
    for path, lines in files():
        for n, line in enumerate(lines, 1):
            c = code(line)
            if re.search(r"\bmatch \(?(way|mode|rule|queue|estimat\w*|kind)\b[^.]", c) or re.search(r"\bif (in_words|sums|asked\.by_max)\b", c):
                yield path, n, c.strip()
            elif re.search(r'\bif \w+\.as_str\(\) == "(table|max|heap)"', c):
                yield path, n, c.strip()


def eight():
    """Answers and lemmas: lines of each proofs/ folder."""
    lines = collections.Counter()
    for path in glob.glob("crates/*/proofs/**/*.antt", recursive=True):
        lines[crate(path)] += sum(1 for x in open(path) if x.strip() and not x.strip().startswith("--"))
    for c in sorted(lines):
        yield f"crates/{c}/proofs", lines[c], "lines of proof"


KINDS = [one, two, three, four, five, six, seven, eight]


def main():
    asked = sys.argv[1:]
    for k, kind in enumerate(KINDS, 1):
        if asked and asked[0].isdigit() and int(asked[0]) != k:
            continue
        rows = sorted(set(kind()))
        if "--counts" not in asked:
            for path, n, what in rows:
                print(f"{k}  {path}:{n}  {what}")
        count = sum(n for _, n, _ in rows) if k == 8 else len(rows)
        print(f"{k}  {kind.__doc__.splitlines()[0]}  {count}")


main()
