#!/usr/bin/env python3
"""Counts the places in src/ that could have a newer form, point by point.

    python3 tools/count_places.py [-v] [FOLDER]

FOLDER is a checkout (this one where none is named); -v lists each place. Each line of the report is one rule: a pattern
over the lines of crates/*/src/*.rt, or a comparison of whole items where the rule says so. What a rule finds is a place to
look at, not yet a fault.
"""
import collections
import glob
import os
import re
import sys

LINES = [
    # point, name, pattern
    ("1 an own enum of two cases, each with one value", r"^\s*On\(P\),$"),
    ("1 an arm that hands on what it matched", r"^\s*(None => None|Err\(_\) => None|Ok\((\(\)|\w+)\) => Ok\(\2\)|Ok\(Some\((\w+)\)\) => Ok\(Some\(\3\)\)|Err\((\w+)\) => (return )?Err\(\4\)),?$"),
    ("1 an arm that wraps an error", r"^\s*Err\((\w+)\) => (return )?Err\((?!\1\)).*$"),
    ("1 a number for `refused` or for `more`", r"=> 0,$|return \w+_LIMIT \+ 1;"),
    ("1 `Some(a) => Some(f(a))`", r"^\s*(Some|Ok)\((\w+)\) => Some\((?!\2\)).*\),$"),
    ("4 a number made or read by hand", r"\bfn (number\(self\)|from_number|from_word|from_kind|from_bits|word\(self\))"),
    ("4 two numbers compared in place of two values", r"\.number\(\) == "),
    ("4 equality by hand", r"\bfn (same\w*|is_letter)\("),
    ("5 a source, categories and names as parameters", r"^\s*(categories: &\[Category; 256\],)$"),
    ("5 a clause about a vector's capacity", r"^\s*(requires|ensures) \w+ \{.*vec_capacity"),
    ("6 a field that is a buffer", r"^\s*(pub(\(crate\))? )?\w+: (Vec<.*>|\[.*; .*\]|ArrayVec<.*>),$"),
    ("7 an enum of steps", r"^\s*pub(\(crate\))? enum (Turn|Stage) "),
]


def sources(top):
    return sorted(glob.glob(os.path.join(top, "crates/*/src/*.rt")))


def line_places(top, pattern):
    for path in sources(top):
        for number, line in enumerate(open(path), 1):
            if re.search(pattern, line.rstrip("\n")):
                yield f"{os.path.relpath(path, top)}:{number}: {line.strip()}"


def loops(top):
    """Loops with a counter: a `while` on a comparison, a `for` with the place of each item, a `for` whose number indexes something."""
    for path in sources(top):
        lines = open(path).read().split("\n")
        for number, line in enumerate(lines, 1):
            m = re.match(r"^(\s*)(?:'\w+: )?(while (?!let)|for \(\w+, \w+\) in .*enumerate|for (\w+) in .*\.\.)", line)
            if not m:
                continue
            body = "\n".join(lines[number:lines.index(m.group(1) + "}", number)])
            if m.group(3) and not re.search(r"\[[^\]]*\b" + m.group(3) + r"\b", body):
                continue
            yield f"{os.path.relpath(path, top)}:{number}: {line.strip()}"


def items(path):
    """Each function of a file that is no test: its name, the line it begins at, and its body."""
    text = open(path).read()
    for m in re.finditer(r"^( *)(?:pub(?:\(crate\))? )?fn (\w+)", text, re.M):
        if text[:m.start()].rstrip().endswith("#[test]"):
            continue
        start = text.find("\n" + m.group(1) + "{\n", m.end())
        end = text.find("\n" + m.group(1) + "}", m.end())
        if -1 < start < end:
            yield m.group(2), text.count("\n", 0, m.start()) + 1, text[start:end]


def shape(body):
    """A body with the types and cases that it names taken out, so that twins are the same."""
    return re.sub(r"\s+", " ", re.sub(r"\b[A-Z]\w*\b", "T", re.sub(r"//.*", "", body)))


def twins(top):
    """Functions with a contract whose bodies, of over 20 characters, differ only in the types and cases that they name."""
    seen = collections.defaultdict(list)
    for path in sources(top):
        for name, line, body in items(path):
            if len(shape(body)) > 20:
                seen[shape(body)].append(f"{os.path.relpath(path, top)}:{line}: {name}")
    for places in seen.values():
        if len(places) > 1:
            yield " ~ ".join(places)


def repeated_clauses(top):
    """Clauses that stand, but for names, in three or more contracts of one crate."""
    seen = collections.defaultdict(list)
    for path in sources(top):
        crate = os.path.relpath(path, top).split("/")[1]
        for number, line in enumerate(open(path), 1):
            m = re.match(r"^\s*(?:requires|ensures)\*? (?:\w+ )?\{ (.*) \}$", line)
            if m and len(m.group(1)) > 40:
                seen[crate, re.sub(r"\b(self|tokens|source)\.(old|new|now)\b", "x", m.group(1))].append(f"{os.path.relpath(path, top)}:{number}")
    for (crate, clause), places in seen.items():
        if len(places) > 2:
            yield f"{crate}: {len(places)} times: {clause[:70]} .. at {' '.join(places)}"


def main():
    words = [w for w in sys.argv[1:] if w != "-v"]
    top = words[0] if words else os.path.join(os.path.dirname(os.path.abspath(__file__)), "..")
    top = os.path.abspath(top)
    rules = [(name, list(line_places(top, pattern))) for name, pattern in LINES]
    rules.append(("3 a loop with a counter", list(loops(top))))
    rules.append(("2 functions that are alike but for types and cases", list(twins(top))))
    rules.append(("5 a clause that stands in three or more contracts of a crate", list(repeated_clauses(top))))
    for name, places in sorted(rules):
        print(f"{len(places):4}  {name}")
        if "-v" in sys.argv:
            for place in places:
                print("        " + place)


main()
