#!/usr/bin/env python3
"""Brings the repository's own definitions, lemmas and record fields to snake case. usage: python3 tools/respell.py, at the top, once, after the kit's script.

A word in camel case is split at its capitals. In a lemma's name a dash stays between two names of definitions and becomes an underscore
before or after a plain word. A lemma whose name would fall together with a definition's gets `_lem`; `--list` prints what becomes what.
Types, modules, functions and fields of src/, strings and data keep their names.
"""
import os
import re
import sys

# What of std stands in lemmas' names as the name of a function.
STD = set("append length take drop map reverse set get_or cond neg pos abs add mul sub mod div suc zero nil flat cut encode decode sum".split())
# Names that mirror what the installed kit calls otherwise.
PARTS = {"getD": "get_or"}
# A definition whose name would be a crate's.
OTHER = {"stageWords": "words_of_stage"}
TOKEN = re.compile(r"[^\s(){}\[\].,;λ«»⌜⌝\"`]+")
DECL = re.compile(r"^ *(?:abbrev |unfoldable )?(?:pub )?([^\s(:{.=]+) :(?= |$)")
FIELD = re.compile(r"^ +pub ([^\s:]+) :")
# The answers to what a proof is asked keep the name of the question.
LEMMA_OF_TOOL = re.compile(r": (tie\.(Need-|invariant|decreases)|\{M : Type 1\} → statement |goal\.)")


def files(root):
    for folder, dirs, names in os.walk(os.path.join(root, "crates")):
        dirs[:] = sorted(d for d in dirs if d not in ("out", "data"))
        for n in sorted(names):
            if n.endswith((".antt", ".rt", ".edit")):
                yield os.path.join(folder, n)


def snake(part):
    part = PARTS.get(part, part)
    if not re.match(r"[a-z]", part):
        return part
    return re.sub(r"(?<=[a-z0-9])([A-Z])", lambda m: "_" + m.group(1).lower(), part)


def declared(path, text):
    """The definitions, lemmas and fields that a file of specs/ or proofs/ declares."""
    for line in text.split("\n"):
        m = FIELD.match(line)
        if m:
            yield m.group(1)
            continue
        m = DECL.match(line)
        if m and not LEMMA_OF_TOOL.search(line):
            yield m.group(1)


def joined(old, definitions):
    """A lemma's name: the dash before the name of a function of std stays where the name of a definition stands before it."""
    out = ""
    for part in (snake(p) for p in old.split("-")):
        if not out:
            out = part
        elif out in definitions and (part in STD or not re.match(r"[a-z]", part)):
            out += "-" + part
        else:
            out += "_" + part
    return out


def table(root):
    names, rust = set(), set()
    for p in files(root):
        text = open(p, encoding="utf-8").read()
        if p.endswith(".antt"):
            names.update(declared(p, text))
        elif p.endswith(".rt"):
            rust.update(re.findall(r"\bconst ([A-Z_0-9]+)", text))
            rust.update(re.findall(r"^    (?:pub )?([a-z_0-9]+):", text, re.M))
    plain = {snake(n) for n in names if "-" not in n and re.match(r"[a-z]", n)}
    to = {}
    for n in sorted(names):
        if not re.match(r"[A-Za-z]", n):
            continue
        if "-" not in n:
            new = snake(n)
        elif not re.match(r"[a-z]", n):
            continue
        else:
            new = joined(n, plain)
        new = OTHER.get(n, new)
        if new != n:
            to[n] = new
    taken = {}
    for n in names:
        taken.setdefault(to.get(n, n), []).append(n)
    for new, olds in sorted(taken.items()):
        if len(olds) > 1:
            # the lemma gives way to the definition
            lemmas = [n for n in olds if not re.search("[A-Z]", n)]
            print("fall together:", new, olds, file=sys.stderr)
            for n in lemmas if len(lemmas) < len(olds) else [m for m in olds if "-" in m]:
                to[n] = new + "_lem"
    for n, new in sorted(to.items()):
        if new in rust:
            print("a name of src/ too:", new, "from", n, file=sys.stderr)
    return to


def main():
    to = table(".")
    if "--list" in sys.argv[1:]:
        for n in sorted(to):
            print(n, to[n])
        return
    for p in files("."):
        with open(p, encoding="utf-8", newline="") as f:
            old = f.read()
        def turned(m):
            n = m.group(0)
            new = to.get(n, n)
            # a name of snake case alone may be a function's: only a lemma's stands in a file of antt, and in no path
            if new != n and not re.search("[A-Z-]", n) and (not p.endswith(".antt") or old[m.start() - 1:m.start()] == "." or old[m.end():m.end() + 1] == "."):
                return n
            return new

        new = TOKEN.sub(turned, old)
        if new != old:
            with open(p, "w", encoding="utf-8", newline="") as f:
                f.write(new)


main()
