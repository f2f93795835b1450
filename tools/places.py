#!/usr/bin/env python3
"""Lists, for each point of docs/DESIGN-PASS.md, the places that its words may mean.

    python3 tools/places.py [FOLDER]

FOLDER is a checkout of this repository (this one if none is named). The lists go by text; what each line is, a reader says. Point 8 reads proofs/, the others
src/ alone.
"""
import collections
import glob
import os
import re
import sys

os.chdir(sys.argv[1] if len(sys.argv) > 1 else os.path.join(os.path.dirname(os.path.abspath(__file__)), ".."))
SOURCES = sorted(glob.glob("crates/*/src/**/*.rt", recursive=True))
PROOFS = sorted(glob.glob("crates/*/proofs/**/*.antt", recursive=True))
WORDS = "fn|let|if|else|match|return|self|while|for|in|mut|pub|as|ensures|requires"


def text(path):
    with open(path, encoding="utf-8") as f:
        return f.read()


def code(path):
    """The file's lines without their comments, numbered."""
    return [(i, re.sub(r"//.*", "", line).rstrip()) for i, line in enumerate(text(path).split("\n"), 1)]


def lines(title, pattern):
    found = [(f, i, line.strip()) for f in SOURCES for i, line in code(f) if re.search(pattern, line)]
    print(f"\n{title}: {len(found)}")
    for f, i, line in found:
        print(f"    {f}:{i}: {line}")


def twins():
    """Functions that are alike but for their names and numbers."""
    shapes = collections.defaultdict(list)
    for f in SOURCES:
        body = "\n".join(line for _, line in code(f))
        for m in re.finditer(r"(fn (\w+)[^{}]*?(?:(?:requires|ensures)[^\n]*\n\s*)*\{\n.*?\n\s*\}\n)(?=\n|\}|$)", body, re.S):
            shape = re.sub(rf"(?!(?:{WORDS})\b)[A-Za-z_]\w*", "x", m.group(1))
            shapes[re.sub(r"\s+", " ", re.sub(r"\b\d\w*", "#", shape))].append(f"{f}: {m.group(2)}")
    alike = [v for v in shapes.values() if len(v) > 1]
    print(f"\n2, functions of one shape: {len(alike)} groups")
    for v in alike:
        print("    " + ", ".join(v))


def uncited():
    """Lemmas of proofs/ that nothing cites, and the answers."""
    everything = {f: text(f) for f in PROOFS + SOURCES}
    lone = []
    for f in PROOFS:
        if "Answers" in f or "Invariants" in f:
            continue
        for m in re.finditer(r"^ *(?:pub )?([^\s:(]+) : .*?(?=\n\n|\Z)", everything[f], re.M | re.S):
            name = m.group(1)
            word = rf"(?<![^\s(){{}},.;:])(?:\S*[.:])?{re.escape(name)}(?![^\s(){{}},.;:])"
            elsewhere = [everything[f].replace(m.group(0), "")] + [t for g, t in everything.items() if g != f]
            if "=" in m.group(0) and not any(re.search(word, t) for t in elsewhere):
                lone.append((f, name))
    print(f"\n8, lemmas that nothing cites: {len(lone)}")
    for f, name in lone:
        print(f"    {f}: {name}")
    answers = [(f, m.group(1)) for f in PROOFS if "Answers" in f for m in re.finditer(r"^pub (\S+) : goal", everything[f], re.M)]
    print(f"\n8, answers: {len(answers)}")
    for f, name in answers:
        print(f"    {f}: {name}")
    low = [f for f in PROOFS if re.search(r"^use (mathlib|Prim|native|lib|borrow)\b", everything[f], re.M)]
    print(f"\n8, files that import from below the library: {len(low)}")
    for f in low:
        print(f"    {f}")


lines("1, enums", r"^ *(pub )?enum ")
lines("1, functions that answer with a number", r"fn [^{]*-> (u8|u16|u32|u64|usize)$")
lines("1, fields that are numbers or flags", r"^ *pub [a-z_]+: (u8|u32|u64|usize|bool),")
twins()
lines("3, loops", r"^ *('\w+: )?(while|loop|for)\b.*\{")
lines("4, casts", r" as (u|i)[0-9s]")
lines("4, matches and copies by hand", r"\bmatch\b|if \w+ \{ \w+ \} else|\breturn false\b|\breturn true\b")
lines("4, derives", r"derive")
lines("5, requires", r"\brequires\b")
lines("5, functions of three parameters and more", r"fn \w+\([^)]*,[^)]*,[^)]*\)")
lines("6, runs beside a number", r"fn \w+\([^)]*&[^)]*, \w+: (u8|u32|usize)")
lines("7, steps chosen by a number or a flag", r"\bdyn\b|\bimpl Fn|: fn\(|match (step|state|kind|mode)\b")
uncited()
