#!/usr/bin/env python3
"""Brings the repository's own definitions and lemmas to the kit's spelling of names, once, after the kit's port.py.

usage: python3 tools/spelling.py [--list]     at the top of the repository

A definition, a field or a constructor is a word in snake case. In a lemma's name a dash joins the names of
two definitions, and a plain word is joined by `_`. Types, facts and modules keep their camel case. Functions
of src/, exported names, texts in quotes, inputs and outputs keep their spelling. The names that a proof file
of a function declares itself are left, since they are named after goals.
With --list it prints each name's old and new spelling and changes nothing.
"""

import collections
import os
import re
import sys

STOP = set(" \t\n(){}[];,.λ\"`")
DECLARED = re.compile(r"^( *)((?:pub|abbrev|unfoldable|data|record|opaque) )*([^\s:(){}λ.;,\"]+) : ")
WORDS = {"length", "append", "take", "drop", "map", "set", "get_or", "le", "lt", "eq", "ne", "add", "sub", "mul", "div", "mod", "pow", "min", "max", "suc", "round", "neg", "size", "nearest", "cond", "ltb", "leb", "eqb", "reverse", "sum", "sqrt"}


def files(root, ends):
    for folder, dirs, names in os.walk(os.path.join(root, "crates")):
        dirs[:] = sorted(d for d in dirs if d not in ("out", ".git"))
        for name in sorted(names):
            if name.endswith(ends):
                yield os.path.join(folder, name)


def is_proof(path):
    return os.path.basename(path) in ("Proof.antt", "Answers.antt", "Invariants.antt")


def text_of(path):
    with open(path, encoding="utf-8") as f:
        return f.read()


def declared(text):
    for line in text.split("\n"):
        m = DECLARED.match(line)
        if m and not line.startswith("--"):
            yield bool(m.group(1)), m.group(3)


def snake(word):
    word = re.sub(r"hPa", "hpa", word)
    word = re.sub(r"(?<=[a-z0-9])([A-Z])(?=[a-z0-9]|$|[-_'])", lambda m: "_" + m.group(1).lower(), word)
    return word


def is_fact(part):
    return bool(re.match(r"^_?[A-Z]", part)) or not re.match(r"^[\w']+$", part)


# Lemmas whose name is that of a definition once both are in snake case.
SECOND = {name: name + "_lem" for name in ("word_value", "value_line", "pair_line", "pair_truth_line", "too_long", "units_of")}


def joined(name, nouns):
    """A lemma's name: a dash between two definitions, `_` before and after a plain word."""
    parts = [snake(p) if p[:1].islower() else p for p in name.split("-")]
    groups = []
    i = 0
    while i < len(parts):
        for j in range(len(parts), i, -1):
            run = "_".join(parts[i:j])
            if run in nouns or (j == i + 1 and is_fact(parts[i])):
                groups.append((run, True))
                i = j
                break
        else:
            groups.append((parts[i], False))
            i += 1
    out = groups[0][0]
    for (_, a), (word, b) in zip(groups, groups[1:]):
        out += ("-" if a and b else "_") + word
    return out


def tokens(text):
    """The text in pieces, each with whether it is a name that may be turned: not in quotes."""
    i, n = 0, len(text)
    while i < n:
        c = text[i]
        if c == '"':
            j = i + 1
            while j < n and text[j] != '"' and text[j] != "\n":
                j += 2 if text[j] == "\\" else 1
            j = min(j + 1, n)
            yield text[i:j], False
        elif c in STOP:
            j = i + 1
            yield c, False
        else:
            j = i + 1
            while j < n and text[j] not in STOP:
                j += 1
            yield text[i:j], True
        i = j


def table(root):
    nouns, names = set(WORDS), collections.defaultdict(set)
    for path in files(root, (".antt",)):
        if is_proof(path):
            continue
        for inner, name in declared(text_of(path)):
            names[name].add(path)
            if "-" not in name and not name[0].isupper():
                nouns.add(snake(name))
    turned = {}
    for name in names:
        if name[0].isupper() and "-" not in name:
            continue
        new = joined(name, nouns) if "-" in name else snake(name)
        if new != name:
            turned[name] = new
    # a lemma that would have a definition's name
    taken = set(names) | set(new for old, new in turned.items() if "-" not in old)
    for old, new in turned.items():
        if "-" in old and new in taken:
            turned[old] = new + "_lem"
    return names, turned


def turn_line(line, turned, mine, proof, code, second):
    """A line of code, or of a comment: there a name with a dash is turned in backquotes alone."""
    at = re.match(r"^\s*(--|//)", line)
    out, last = [], ""
    for piece, word in tokens(line):
        if word and piece not in mine:
            dashed = "-" in piece
            if piece in turned and not (dashed and (code or (at and last != "`") or (proof and last == "."))):
                piece = turned[piece]
            elif piece in second and last != "." and not code:
                piece = second[piece]
        out.append(piece)
        last = piece
    return "".join(out)


def turn(text, turned, mine=frozenset(), proof=False, code=False, second={}):
    return "\n".join(turn_line(line, turned, mine, proof, code, second) for line in text.split("\n"))


def main():
    root = os.getcwd()
    names, turned = table(root)
    if "--list" in sys.argv:
        for old in sorted(turned):
            print(old, turned[old])
        back = collections.defaultdict(set)
        for old, new in turned.items():
            back[new].add(old)
        for new, olds in sorted(back.items()):
            if len(olds) > 1 or (new in names and new not in turned):
                print("falls together:", new, sorted(olds), sorted(p[len(root) + 8:] for o in list(olds) + ([new] if new in names else []) for p in names[o])[:8], file=sys.stderr)
        return
    changed = 0
    for path in files(root, (".antt", ".rt")):
        text = text_of(path)
        proof = is_proof(path)
        mine = set(n for _, n in declared(text)) if proof else frozenset()
        new = turn(text, turned, mine, proof, path.endswith(".rt"), SECOND)
        if new != text:
            changed += 1
            with open(path, "w", encoding="utf-8") as f:
                f.write(new)
    print(f"spelling: {len(turned)} names, {changed} files changed")


if __name__ == "__main__":
    main()
