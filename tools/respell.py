#!/usr/bin/env python3
"""Brings this repository's own names in specs, proofs and clauses to the spelling of today's Rattle. It was run once, for the port.

    tools/respell.py          in a tree that port.py has turned: rewrites crates/*/specs, proofs and the clauses of src
    tools/respell.py --list   only prints old and new names, and names that would fall together

A name of two words is `two_words`; one that begins with a capital, a type or a fact, is `TwoWords`. Names that the check makes
for goals (in proofs/FUNCTION/) and names of the library keep their dashes. Functions of src/, strings and comments are left alone.
"""

import collections
import os
import re
import sys

NAME = r"[^\W\d_][\w'₀-₉]*"
DASHED = re.compile(rf"(?<![\w'₀-₉-])«?({NAME}(?:-[\w'₀-₉]+)+)»?", re.U)
DECLARED = [
    re.compile(rf"^\s*(?:abbrev\s+)?(?:pub\s+)?(?:record\s+|data\s+)?({NAME}(?:-[\w'₀-₉]+)*)\s*:", re.U),
    re.compile(rf"^\s*(?:pub\s+)?(?:record|data)\s+({NAME}(?:-[\w'₀-₉]+)*)", re.U),
    re.compile(rf"^({NAME}(?:-[\w'₀-₉]+)*)(?:\s+[^:=]*)?\s=", re.U),
]
ALIAS = re.compile(rf"\bas\s+«?({NAME}(?:-[\w'₀-₉]+)+)»?", re.U)
GHOST = re.compile(r"^\s*(ghost\b|pub ghost\b|(ensures|requires|invariant|decreases|also_owns|also_shares|yields)\b)")


def files(top):
    for folder, dirs, names in os.walk(os.path.join(top, "crates")):
        dirs[:] = sorted(d for d in dirs if d not in ("out", ".git", "must-fail", "data"))
        for name in sorted(names):
            if name.endswith((".antt", ".rt")):
                yield os.path.join(folder, name)


def of_function(path):
    """Whether the file answers one function's goals: its declared names are the check's."""
    return os.path.basename(path) in ("Answers.antt", "Choices.antt", "Invariants.antt", "Proof.antt") and os.path.basename(os.path.dirname(path)) != "proofs"


def code(line):
    return re.split(r"(?<!\S)--(?!-)", line, maxsplit=1)[0]


def declared(top):
    names, made = set(), set()
    for path in files(top):
        if not path.endswith(".antt"):
            with open(path, encoding="utf-8") as f:
                for line in f:
                    if GHOST.match(line):
                        names.update(ALIAS.findall(line))
            continue
        with open(path, encoding="utf-8") as f:
            for line in f:
                text = code(line)
                found = {m.group(1) for p in DECLARED for m in [p.match(text)] if m and "-" in m.group(1)}
                (made if of_function(path) else names).update(found)
                names.update(ALIAS.findall(text))
                names.update(n for n in re.findall(rf"\blet\s+({NAME}(?:-[\w'₀-₉]+)+)", text))
                for group in re.findall(r"λ ([^.]*)\.", text) + re.findall(r"[({]([^(){}:]*) :", text):
                    names.update(w for w in group.split() if DASHED.fullmatch(w))
    return names - made, made & names


def respelled(name):
    words = name.split("-")
    if name[0].isupper():
        return words[0] + "".join(w[:1].upper() + w[1:] for w in words[1:])
    return "_".join(words)


def turn(text, names):
    return DASHED.sub(lambda m: respelled(m.group(1)) if m.group(1) in names else m.group(0), text)


def turned(path, text, names):
    out, depth, ghost = [], 0, False
    for line in text.split("\n"):
        if path.endswith(".antt"):
            head = code(line)
            out.append(turn(head, names) + line[len(head):])
            continue
        # in a .rt file: ghost items and clauses, up to the brace or semicolon that ends them
        if depth == 0 and GHOST.match(line):
            ghost = True
        if ghost:
            head = line.split("//", 1)[0]
            depth += head.count("{") - head.count("}")
            out.append(turn(head, names) + line[len(head):])
            if depth <= 0:
                ghost, depth = False, 0
        else:
            out.append(line)
    return "\n".join(out)


def main(argv):
    top = os.path.dirname(os.path.dirname(os.path.abspath(__file__)))
    names, both = declared(top)
    texts = {}
    for path in files(top):
        with open(path, encoding="utf-8") as f:
            texts[path] = f.read()
    words = collections.defaultdict(set)
    for path, text in texts.items():
        for line in text.split("\n"):
            for w in re.findall(r"[\w'₀-₉]+(?:-[\w'₀-₉]+)*", code(line) if path.endswith(".antt") else line):
                words[w].add(path)
    news = collections.defaultdict(set)
    for n in names:
        news[respelled(n)].add(n)
    for new, olds in sorted(news.items()):
        if len(olds) > 1:
            print("together:", new, *sorted(olds))
        for old in olds:
            where = words[old] & words.get(new, set())
            if where:
                print("taken:", old, new, *sorted(os.path.relpath(p, top) for p in where)[:4])
    for n in sorted(both):
        print("made by the check too:", n)
    if "--list" in argv:
        for n in sorted(names):
            print(n, respelled(n))
        return 0
    for path, text in texts.items():
        new = turned(path, text, names)
        if new != text:
            with open(path, "w", encoding="utf-8") as f:
                f.write(new)
    return 0


if __name__ == "__main__":
    raise SystemExit(main(sys.argv[1:]))
