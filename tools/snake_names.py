#!/usr/bin/env python3
"""Gives the repository's own names in .antt files the spelling of this Rattle: functions, lemmas, constructors and fields in snake case.

usage: python3 tools/snake_names.py [--dry]     at the top, once, after the kit's port.py

A name is renamed where it is declared in a specs/ or proofs/ file of a crate and is in lower camel case or has a dash. Names that Rattle makes
(goals, invariants) and names that a file imports from a library stay. Text in quotes stays. It prints what it renames and what falls together."""
import os
import re
import sys

NAME = re.compile(r"(?<![\w'′·-])([a-z_][\w'′]*(?:-[\w'′≤<≡∷+]+)*)(?![\w'′-])")
DECL = re.compile(r"^(\s*)((?:abbrev |unfoldable |pub )*)([^\s:(){}λ.]+(?: [^\s:(){}λ.]+)*) : (.*)$")


def files(root, ends):
    for folder, dirs, names in os.walk(root):
        dirs[:] = sorted(d for d in dirs if d not in ("out", ".git", "target"))
        for f in sorted(names):
            if f.endswith(ends):
                yield os.path.join(folder, f)


def snake(n):
    n = n.replace("-", "_")
    n = re.sub(r"(?<=[a-z0-9])([A-Z])", lambda m: "_" + m[1].lower(), n)
    return n


def odd(n):
    return bool(re.match(r"^[a-z]", n)) and (("-" in n) or bool(re.search(r"[A-Z]", n)))


def declared(path, text, fits):
    made = set()
    for line in text.split("\n"):
        s = line.strip()
        if s.startswith(("use ", "--", "let ", "in ")):
            continue
        m = re.match(r"^pub (?:abbrev )?(?:record|data) |^(?:pub )?module ", s)
        if m:
            continue
        m = DECL.match(line)
        if not m:
            continue
        if re.match(r"^(goal|needs|given)\.", m[4].strip()):
            continue
        for n in m[3].split(" "):
            if fits(n) and re.fullmatch(r"[a-z_][\w'′≤<≡∷+]*(?:-[\w'′≤<≡∷+]+)*", n):
                made.add(n)
    return made


def foreign(text):
    got = set()
    for m in re.finditer(r"use ([^\s{;]+?)(?:\.\{([^}]*)\})?(?: as [\w']+)?;?$", text, re.M):
        if m[2] and not re.match(r"Rattle\.(%s)\." % "|".join(CRATES), m[1]):
            got |= {x.strip().split(" as ")[0] for x in m[2].split(",")}
        if m[2] and re.search(r"\.(Goals|Given)$", m[1]):
            got |= {x.strip() for x in m[2].split(",")}
    return got


def generated(text):
    """Names that this file answers."""
    got = set()
    for line in text.split("\n"):
        m = DECL.match(line)
        if m and re.match(r"^(goal|needs|given)\.", m[4].strip()):
            got |= set(m[3].split(" "))
    return got


def main(argv):
    global CRATES
    CRATES = sorted(os.listdir("crates"))
    dry = "--dry" in argv
    texts = {p: open(p, encoding="utf-8").read() for p in files("crates", (".antt", ".rt"))}
    names, plain = set(), set()
    for p, t in texts.items():
        if p.endswith(".antt"):
            names |= declared(p, t, odd)
            plain |= declared(p, t, lambda n: not odd(n))
    table = {n: snake(n) for n in names}
    camels = {s for n, s in table.items() if "-" not in n}
    # A lemma that would have its function's name.
    for n, s in table.items():
        if "-" in n and (s in camels or s in plain):
            table[n] = s + "_lem"
    for s in sorted(plain & camels):
        table[s] = s + "_lem"
    every = set()
    for p, t in texts.items():
        every |= set(NAME.findall(t))
    byn = {}
    for n, s in table.items():
        byn.setdefault(s, []).append(n)
    for s, ns in sorted(byn.items()):
        if len(ns) > 1 or s in every:
            print("falls together:", s, ns, "stands already" if s in every else "")
    print(len(table), "names")
    after = {}
    extra = [p for p in files("crates", (".edit",))]
    texts.update({p: open(p, encoding="utf-8").read() for p in extra})
    changed = 0
    for p, t in texts.items():
        skip = foreign(t) | generated(t)

        def turn(m):
            n = m[1]
            if n not in table or n in skip or p.endswith((".rt", ".edit")) and not odd(n):
                return m[0]
            if m.start() > 0 and t[m.start() - 1] == "." and (not odd(n) or re.search(r"(?<![\w'])(c|auto)\.$", t[:m.start()])):
                return m[0]
            if m.start() > 0 and t[m.start() - 1] == "." and p.endswith(".antt"):
                after.setdefault(n, []).append(p + ": " + t[max(0, m.start() - 25):m.end()].replace("\n", " "))
            return table[n]

        if p.endswith((".rt", ".edit")):
            parts = re.split(r'("(?:[^"\\\n]|\\.)*")', t)
            new = "".join(x if i % 2 else re.sub(NAME, turn, x) for i, x in enumerate(parts))
        else:
            parts = re.split(r'("(?:[^"\\\n]|\\.)*")', t)
            new = "".join(x if i % 2 else re.sub(NAME, turn, x) for i, x in enumerate(parts))
        if new != t:
            changed += 1
            if not dry:
                open(p, "w", encoding="utf-8").write(new)
    print(changed, "files")
    if dry:
        for n, ps in sorted(after.items()):
            print("after a dot:", n, len(ps), ps[0])


main(sys.argv[1:])
