#!/usr/bin/env python3
"""Brings the function proofs of crates from an older kit's names of steps, needs and places to the installed kit's.

usage: python3 tools/rename_steps.py NAMES CRATE.., at the top, once for each crate, after `rt names NAMES`.
"""
import json
import os
import re
import sys

IDENT = re.compile(r"[^\s(){}\[\],;λ«»⌜⌝\"`]+")
FIXED = {
    "type-inv": "type_inv", "well-formed": "well_formed", "ghost-name": "ghost_name", "ref-ptr": "ref_ptr",
    "inv": "invariant", "pre": "requires", "post": "ensures",
}
# The names of src/ that have an underscore.
RUST = set()
# What follows these is a variable of the code.
VARIABLES = {"args", "ranges", "new", "auto"}
# What follows these is no step.
OWN = {"invariant", "requires", "ensures", "result"}


def norm(n):
    return n.replace("_", "-")


class Names:
    def __init__(self, entry):
        self.needs = {}
        for old, new in entry["needs"]:
            self.needs.setdefault(norm(old), new)
        for s in entry.get("settled", []):
            self.needs.setdefault(norm(s), s)
        self.places, self.fields, self.of_call = {}, {}, {}
        for place, new in zip(entry["places"], entry["places_by_name"]):
            self.places[norm(place[0])] = new
            old, now = place[2]
            if old and (now != old + "-1" or "_" in old):
                self.fields.setdefault(norm(old), now)
                if place[3] and place[3] in entry["params"]:
                    self.of_call[norm(old)] = entry["params"][place[3]]
        # what an arm binds, and that the value is the variant
        self.arms = {}
        for arm in entry["arms"]:
            for name, step, path in arm[2] if arm else []:
                if path:
                    self.arms[(norm(step), *path)] = [arm[0], name]
        self.loops = {}
        for (old, new), _ in entry["loops"]:
            self.loops[norm(old)] = new
        # the place before each place, and the one before the arm that it stands in
        index = {place[0]: i for i, place in enumerate(entry["places"])}
        self.before = [index.get(place[1]) for place in entry["places"]]
        self.named = {n: i for i, n in enumerate(entry["places_by_name"])}
        self.out_of = []
        for i, arm in enumerate(entry["arms"]):
            j = self.before[i]
            for _ in range(arm[1] - 1 if arm else 0):
                j = self.before[j]
            self.out_of.append(j)
        self.group = []
        for i, arm in enumerate(entry["arms"]):
            j = i
            for _ in range(arm[1] - 1 if arm else 0):
                j = self.before[j]
            self.group.append(j if arm else None)
        self.asked = [self.named.get(a[1]) for a in entry["asked_at"]]
        self.need_at = {new: at for (_, new), at in zip(entry["needs"], self.asked)}
        self.args = [(o.replace(" ", ""), n.replace(" ", "")) for o, n in entry["args"]]

    def need(self, n):
        n = norm(n)
        for c in (n, n.replace("overflow-", "", 1)):
            if c in self.needs:
                return self.needs[c]
        return None


def turn_path(parts, names, miss):
    """The parts of a.b.c"""
    head, out = parts[0], []
    if head == "tie" and len(parts) == 2:
        n = parts[1]
        if n.startswith("Need-"):
            new = names.need(n[5:])
            if new is None:
                miss.append(n)
                return parts
            return ["tie", "Need-" + new]
        for kind in ("invariant-", "decreases-"):
            if n.startswith(kind):
                new = names.loops.get(norm(n[len(kind):]))
                return ["tie", kind + new] if new else parts
        new = names.places.get(norm(n))
        return ["tie", new] if new else parts
    out.append(head)
    before = None
    rest = parts[1:]
    while rest:
        p, rest = rest[0], rest[1:]
        k = norm(p)
        last, before = before, k
        arm = next((n for n in (3, 2, 1) if (k, *rest[:n]) in names.arms and len(rest) >= n), None)
        if k == "before" and rest and rest[0] != "before":
            continue
        elif k == "before" and any(r != "before" for r in rest):
            continue
        elif arm and last not in VARIABLES and last not in names.loops:
            out += names.arms[(k, *rest[:arm])]
            rest = rest[arm:]
        elif last in VARIABLES or last in names.loops:
            out.append("invariant" if p == "inv" else p.replace("-", "_"))
        elif p in ("auto", "new", "last") and last in names.of_call and rest and rest[0] in ("0", "1"):
            # nested pairs, one for each parameter
            k = 0
            while rest and rest[0] == "1":
                k, rest = k + 1, rest[1:]
            rest = rest[1:] if rest[:1] == ["0"] else rest
            out += ["new" if p == "last" else p, names.of_call[last][k]]
            before = p
        elif last in OWN:
            out.append(p.replace("-", "_") if p.replace("-", "_") in RUST else p)
            before = last
        elif k in names.fields:
            out.append(names.fields[k])
        elif "-" in p and p.replace("-", "_") in RUST:
            out.append(p.replace("-", "_"))
        elif p in FIXED:
            out.append(FIXED[p])
        else:
            out.append(p)
    return out


def turned(text, names, function, miss):
    own = norm(function) + "-spec"

    def one(m):
        t = m.group(0)
        if norm(t) == own:
            return function + "_spec"
        if "." in t and not t.startswith("Rattle") and not re.match(r"(borrow|mathlib|lib|native|mir|Prim|denote|logic)\.", t):
            lead = "." if t.startswith(".") else ""
            parts = t[len(lead):].split(".")
            if lead:
                parts = ["x"] + parts
            new = turn_path(parts, names, miss)
            return lead + ".".join(new[1:] if lead else new)
        return t

    lines = []
    for line in text.split("\n"):
        lines.append(line if line.startswith("use ") or line.startswith("--") else IDENT.sub(one, line))
    text = "\n".join(lines)
    for o, n in names.args:
        text = re.sub(re.escape(o) + r"(?![\w'-])", n, text)
    return text


def steps(names, start, k):
    """Where k steps back led from a place, a pair of what it was and is, and how many steps lead there today; None where none do."""
    to, at = start
    for _ in range(k):
        if to is None:
            return None
        to = names.before[to]
    n = 0
    while at is not None and at != to:
        if names.group[at] is not None and to is not None and names.group[at] == names.group[to]:
            break
        at, n = names.out_of[at], n + 1
    return (n, (to, at)) if at is not None and to is not None else None


CHAIN = re.compile(r"(?<![\w.'-])([\w'-]+)((?:\.before)+)(?![\w.'-])")
LET = re.compile(r"let ([\w'-]+) = ([\w'-]+)((?:\.before)+)(?= in)")


def rechain(line, names, places, roots, leads):
    """A line whose chains of steps back lead to a place and no further, counted as today's places stand."""

    def one(m):
        y, k = m.group(1), m.group(2).count(".before")
        found = steps(names, places[y], k) if y in places else None
        return m.group(0) if found is None else y + ".before" * found[0]

    for m in re.finditer(r"let ([\w'-]+) = ([\w'-]+) [\w'.-]+(?= in)", line):
        if m.group(2) in leads:
            places[m.group(1)] = (leads[m.group(2)][1],) * 2

    def called(m):
        found = steps(names, (leads[m.group(1)][1],) * 2, m.group(3).count(".before")) if m.group(1) in leads else None
        return m.group(0) if found is None else f"({m.group(1)} {m.group(2)})" + ".before" * found[0]

    line = re.sub(r"\(([\w'-]+) ([\w'.-]+)\)((?:\.before)+)(?![\w.'-])", called, line)
    pos, new = 0, ""
    for m in LET.finditer(line):
        new += CHAIN.sub(one, line[pos:m.start()])
        x, y, k = m.group(1), m.group(2), m.group(3).count(".before")
        found = steps(names, places[y], k) if y in places else None
        if found:
            places[x], roots[x] = found[1], roots.get(y, y)
            new += f"let {x} = {y}" + ".before" * found[0]
        else:
            places.pop(x, None)
            roots.pop(x, None)
            new += m.group(0)
        pos = m.end()
    new += CHAIN.sub(one, line[pos:])
    # what an earlier place knows, a later one knows too
    return re.sub(r"(?<![\w.'-])([\w'-]+)(?=\.(?!before)[a-z])", lambda m: roots.get(m.group(1), m.group(1)), new)


def at(names, place):
    i = names.named.get(place)
    return None if i is None else (i, i)


def rechained(text, names):
    head, spec, tail = text.partition("tie.close (tie.spec")
    places, needs_of, roots = {}, {}, {}
    lines = head.split("\n")
    leads, typed, module = {}, {}, None
    for n, line in enumerate(lines):
        m = re.match(r"(?:abbrev )?([\w'-]+) : tie\.([A-Z][\w'-]*)(?: [^→]*)? → tie\.([A-Z][\w'-]*)", line)
        if m and at(names, m.group(2)) and at(names, m.group(3)):
            leads[m.group(1)] = (at(names, m.group(2))[0], at(names, m.group(3))[0])
        m = re.match(r"([\w'-]+) (\w+) = \2((?:\.before)+)$", line)
        if m and m.group(1) in leads:
            back, i = 0, leads[m.group(1)][0]
            while i is not None and i != leads[m.group(1)][1]:
                i, back = names.out_of[i], back + 1
            if i is not None:
                lines[n] = f"{m.group(1)} {m.group(2)} = {m.group(2)}" + ".before" * back
                continue
        m = re.match(r"module _ \((\w+) : tie\.([A-Z][\w'-]*)", line)
        if m:
            module = at(names, m.group(2))
        m = re.match(r"  (?:abbrev )?([\w'-]+) : tie\.([A-Z][\w'-]*)(?! [^→]*→)", line)
        if m and at(names, m.group(2)):
            typed[m.group(1)] = at(names, m.group(2))
        m = re.match(r"  ([\w'-]+) = ([\w'-]+)((?:\.before)+)$", line)
        if m and m.group(1) in typed and m.group(2) in places:
            back, i, to = 0, places[m.group(2)][1], typed[m.group(1)][0]
            while i is not None and i != to:
                i, back = names.out_of[i], back + 1
            if i is not None:
                lines[n] = f"  {m.group(1)} = {m.group(2)}" + ".before" * back
                places[m.group(1)] = (to, to)
                if module:
                    leads[m.group(1)] = (module[0], to)
                continue
        if line[:1] not in (" ", "", ")"):
            places, roots, typed = {}, {}, {}
            m = re.match(r"([\w'-]+) : tie\.Need-([\w'-]+)", line)
            if m and names.need_at.get(m.group(2)) is not None:
                needs_of[m.group(1)] = (names.need_at[m.group(2)],) * 2
            m = re.match(r"([\w'-]+) :", line)
            if m and m.group(1) not in needs_of:
                t = [at(names, x) for x in re.findall(r"tie\.([A-Z][\w'-]*)", line)]
                if t and t[0]:
                    needs_of[m.group(1)] = t[0]
            m = re.match(r"([\w'-]+) (\w+)", line)
            if m and m.group(1) in needs_of:
                places[m.group(2)] = needs_of[m.group(1)]
        for m in re.finditer(r"\((\w+) : tie\.([A-Z][\w'-]*)", line):
            if at(names, m.group(2)):
                places[m.group(1)] = at(names, m.group(2))
        lines[n] = rechain(line, names, places, roots, leads)
    out, i, k, first = "\n".join(lines) + spec, 0, 0, 2 * len(names.loops)
    while i < len(tail):
        if tail[i] != "(" or tail[i - 1:i] not in (" ", "\n"):
            m = re.match(r"[\w'-]+", tail[i:])
            if m and tail[i - 1:i] in (" ", "\n"):
                k += 1
                out += m.group(0)
                i += m.end()
                continue
            out += tail[i]
            i += 1
            continue
        depth, j = 0, i
        while j < len(tail):
            depth += {"(": 1, ")": -1}.get(tail[j], 0)
            j += 1
            if depth == 0:
                break
        argument = tail[i:j]
        m = re.match(r"\(λ (\w+)", argument)
        need = k - first
        if m and 0 <= need < len(names.asked) and names.asked[need] is not None:
            places, roots = {m.group(1): (names.asked[need],) * 2}, {}
            argument = "\n".join(rechain(line, names, places, roots, leads) for line in argument.split("\n"))
        out += argument
        k, i = k + 1, j
    return out


def main():
    where, crates = sys.argv[1], sys.argv[2:]
    for folder, _, files in os.walk("crates"):
        for n in files:
            if n.endswith(".rt"):
                with open(os.path.join(folder, n), encoding="utf-8") as f:
                    RUST.update(re.findall(r"[a-z][a-z0-9]*_[a-z0-9_]*", f.read()))
    for c in crates:
        with open(os.path.join(where, "crates", c, "names.json"), encoding="utf-8") as f:
            listed = json.load(f)
        top = os.path.join("crates", c, "proofs")
        for folder, _, files in os.walk(top):
            if "Proof.antt" not in files:
                continue
            path = os.path.relpath(folder, top).replace("/", ".")
            entry = listed.get(f"Rattle-{c}-proofs.{path}.Lts")
            if entry is None:
                print(f"{c}: no names for {path}")
                continue
            p = os.path.join(folder, "Proof.antt")
            with open(p, encoding="utf-8") as f:
                old = f.read()
            miss = []
            names = Names(entry)
            new = rechained(turned(old, names, path.split(".")[-1], miss), names)
            for n in miss:
                print(f"{c}: {path}: no need {n}")
            with open(p, "w", encoding="utf-8") as f:
                f.write(new)


main()
