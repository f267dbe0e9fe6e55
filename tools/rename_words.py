#!/usr/bin/env python3
"""Respells the words of specs/ and proofs/ as today's Rattle spells them: facts and types in camel case, all else in snake case.

usage: python3 tools/rename_words.py            at the top of the repository, once, after the kit's port.py
       python3 tools/rename_words.py --list     only prints each old and new name

A word is taken if a file of specs/ or proofs/ declares it; answers to goals keep the names that the check gives them. In a .rt file only
ghost items and clauses are changed: functions, exported names, strings and comments keep their spelling.
"""
import glob
import re
import sys

WORD = r"[A-Za-zℕ_][\wℕ'′-]*"
TAKEN = re.compile(r"(?<![\w'′-])" + WORD)
HEAD = re.compile(r"^(\s*)((?:(?:pub|abbrev|unfoldable)\s+)*)(?:(record|data)\s+)?(" + WORD + r")\s*(.*)$")
KEYWORDS = {"use", "pub", "mod", "let", "in", "elim", "unfolding", "syntax", "module", "ruleset", "rw", "simp", "omega", "ap", "sym"}
# Names that the check makes of a step or a variable, where one of ours has the same spelling: after a dot they are the check's.
MADE = {"path-is", "node-is", "initial-is"}


def files():
    for kind in ("specs", "proofs"):
        yield from sorted(p for p in glob.glob(f"crates/*/{kind}/**/*.antt", recursive=True))


def declared():
    own, goals = set(), set()
    for path in files():
        for line in open(path, encoding="utf-8").read().split("\n"):
            m = HEAD.match(line)
            if not m or m.group(4) in KEYWORDS or ("-" not in m.group(4) and "′" not in m.group(4)):
                continue
            name, rest = m.group(4), m.group(5)
            if m.group(3) or re.match(r"(?:\{[^}]*\}\s*|\([^)]*\)\s*)*:(?:\s|$)", rest):
                (goals if re.search(r":\s*goal\.", rest) else own).add(name)
    return own - goals


def spelled(name):
    tail = len(name) - len(name.rstrip("'′"))
    body, primes = (name[: len(name) - tail], "'" * tail) if tail else (name, "")
    body = body.replace("getD", "get_or")
    parts = [p for p in re.split(r"-", body) if p]
    if body[0].isupper():
        return "".join(p[0].upper() + p[1:] for p in parts) + primes
    return "_".join(parts) + primes


def rename(text, names):
    def one(m):
        word = m.group(0)
        if word not in names:
            return word
        if word in MADE and m.start() and text[m.start() - 1] == ".":
            return word
        return names[word]

    return TAKEN.sub(one, text)


CLAUSE = re.compile(r"^\s*(?:requires|ensures|ghost|invariant|also_owns|also_shares|lifetimes)\b")


def rename_source(text, names):
    """Ghost items and clauses only; a clause goes on while its brace is open."""
    out, depth = [], 0
    for line in text.split("\n"):
        if depth > 0 or CLAUSE.match(line):
            code, sep, note = line.partition("//")
            out.append(rename(code, names) + sep + note)
            depth = max(0, depth + code.count("{") - code.count("}"))
        else:
            out.append(line)
    return "\n".join(out)


def main():
    names = {n: spelled(n) for n in declared()}
    fallen = {}
    for old, new in sorted(names.items()):
        fallen.setdefault(new, []).append(old)
    if "--list" in sys.argv:
        for old, new in sorted(names.items()):
            print(old, new)
        for new, olds in fallen.items():
            if len(olds) > 1:
                print("together:", new, olds)
        return
    for path in files():
        text = open(path, encoding="utf-8").read()
        new = "\n".join(l if l.lstrip().startswith("--") else rename(l, names) for l in text.split("\n"))
        if new != text:
            open(path, "w", encoding="utf-8").write(new)
    for path in sorted(glob.glob("crates/*/src/**/*.rt", recursive=True)):
        text = open(path, encoding="utf-8").read()
        new = rename_source(text, names)
        if new != text:
            open(path, "w", encoding="utf-8").write(new)
    for path in sorted(glob.glob("crates/*/must-fail/*.edit")):
        text = open(path, encoding="utf-8").read()
        if re.search(r"^file: (?:specs|proofs)/", text, re.M):
            new = "\n".join(rename(l, names) if re.match(r"(?:old|new):", l) else l for l in text.split("\n"))
            if new != text:
                open(path, "w", encoding="utf-8").write(new)


main()
