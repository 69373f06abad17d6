#!/usr/bin/env python3
"""Respells the repository's own definitions, lemmas and fields in today's style, once, after port.py.

usage: python3 tools/respell.py [--list]     at the top of the repository

Types are written in upper camel case (Refined-by becomes RefinedBy), everything else in snake case
(level-before becomes level_before). Names that the toolchain makes, names of the library, functions of src/ and
strings keep their spelling. With --list nothing is written: the map is printed, with what falls together.
"""

import os
import re
import sys

# a declaration or a field: its name comes first on the line, and no '=' stands before its colon
DECLARED = re.compile(r"^\s*(?:abbrev |pub |record |data |unfoldable |pattern )*([^\s:(){}=]+)(?: [^=]*?)? :(?!=)")
GOAL = re.compile(r":\s*(goal|need|choice|Given|Goals)\.")
OTHER = re.compile(r"^\s*(use|ghost|unfolding|mod|pub mod|module|let|open|elim|rw|λ)\b")
NAME = r"\w'\-◌\u00b7"


def files(top):
    for folder, dirs, names in os.walk(os.path.join(top, "crates")):
        dirs[:] = sorted(d for d in dirs if d not in ("out", "data"))
        for n in sorted(names):
            if n.endswith((".rt", ".antt", ".edit")):
                yield os.path.join(folder, n)


def read(path):
    with open(path, encoding="utf-8") as f:
        return f.read()


def respelt(name):
    if "◌" in name or "." in name or name == "_" or name.startswith("All-"):
        return name
    name = name.replace("getD", "get_or")
    if re.match(r"[A-Z]\w", name):
        return "".join(p[:1].upper() + p[1:] for p in re.split(r"[-_]", name)) if re.search(r"[-_]", name) else name
    if "-" not in name:
        return name
    return re.sub(r"[A-Z]", lambda m: m.group(0).lower(), name.replace("-", "_"))


def own_names(top):
    """The names that files of specs/ and proofs/ declare, fields of records too, but for the goals, which the toolchain names."""
    found = {}
    for path in files(top):
        if not path.endswith(".antt"):
            continue
        for line in read(path).split("\n"):
            m = None if OTHER.match(line) or line.lstrip().startswith("--") else DECLARED.match(line)
            if m and not GOAL.search(line):
                found.setdefault(m.group(1), set()).add(path)
    return found


def substitute(text, turn, strings):
    """The text with the names turned; strings of .rt files are passed over."""
    pattern = re.compile(r"(?<![" + NAME + r"])(" + "|".join(sorted(map(re.escape, turn), key=len, reverse=True)) + r")(?![" + NAME + r"])")

    def line_of(line):
        if not strings or '"' not in line:
            return pattern.sub(lambda m: turn[m.group(1)], line)
        parts = re.split(r'("(?:[^"\\]|\\.)*")', line)
        return "".join(p if i % 2 else pattern.sub(lambda m: turn[m.group(1)], p) for i, p in enumerate(parts))

    return "\n".join(line_of(line) for line in text.split("\n"))


def main():
    top = os.getcwd()
    names = own_names(top)
    turn = {n: respelt(n) for n in names if respelt(n) != n}
    targets = {}
    for n, t in turn.items():
        targets.setdefault(t, []).append(n)
    if "--list" in sys.argv:
        for n in sorted(turn):
            print(n, "->", turn[n])
        for t, ns in sorted(targets.items()):
            if len(ns) > 1:
                print("together:", t, ns)
            if t in names:
                print("already declared:", t, ns, sorted(names[t]))
        word = {t: re.compile(r"(?<![" + NAME + r"])" + re.escape(t) + r"(?![" + NAME + r"])") for t in targets}
        for path in files(top):
            text = read(path)
            for t, ns in targets.items():
                if word[t].search(text):
                    print("stands already:", os.path.relpath(path, top), t, "uses" if any(n in text for n in ns) else "")
        for path in files(top):
            if "/proofs/" in path and path.endswith(("Answers.antt", "Invariants.antt", "Proof.antt")):
                for n in turn:
                    for m in re.finditer(r"[^\s(){}]*\." + re.escape(n) + r"(?![" + NAME + r"])[^\s(){}]*", read(path)):
                        if not m.group(0).startswith("Rattle."):
                            print("after a dot:", os.path.relpath(path, top), m.group(0))
        return
    for path in files(top):
        text = read(path)
        turned = substitute(text, turn, path.endswith(".rt"))
        if turned != text:
            with open(path, "w", encoding="utf-8") as f:
                f.write(turned)


main()
