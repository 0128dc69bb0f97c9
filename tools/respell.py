#!/usr/bin/env python3
"""Brings this repository's own definitions and lemmas to snake case, and its facts to camel case.

Run once, at the top, after the kit's port.py. A name is one that a file of specs/ or proofs/ declares; names that
Rattle makes (a goal, a step of a proof's record) keep their dashes, as do std's. Comments, strings, inputs and
outputs stay. With --list it only prints what it would rename, and which names fall together.
"""
import collections
import glob
import re
import sys

IDENT = r"[^\s(){}\[\],;.:«»\"@λ×→=]+"
DECL = re.compile(
    r"^(\s*)(?:(?:abbrev|unfoldable|pub|data|record|mutual)\s+)*(" + IDENT + r")\s+(?:\(.*?\)\s*|\{.*?\}\s*)*:(?:\s|$)"
)
GOAL = re.compile(r":\s*goal\.")
TOKEN = re.compile(r"(?<![^\s(){}\[\],;.:«»\"@λ×→=])([^\s(){}\[\],;.:«»\"@λ×→=]*-[^\s(){}\[\],;.:«»\"@λ×→=]*)(?![^\s(){}\[\],;.:«»\"@λ×→=])")
# Lemmas that begin with a word in one capital letter.
WORDS = {"W"}


def antt_files():
    return sorted(glob.glob("crates/*/specs/**/*.antt", recursive=True) + glob.glob("crates/*/proofs/**/*.antt", recursive=True))


def declared():
    """Own names with a dash, and those of them that are fields of a record."""
    names, fields, imported = collections.OrderedDict(), set(), set()
    for path in antt_files():
        in_record = False
        for line in open(path, encoding="utf-8"):
            if line.lstrip().startswith("--") or not line.strip():
                continue
            if line.startswith("use "):
                found = re.match(r"use (Rattle\.std|Rattle\.core|borrow|denote|mathlib|Prim|lib|native)\S*\{(.*)\}", line)
                if found:
                    imported.update(x.split(" as ")[-1].strip() for x in found.group(2).split(","))
                continue
            if not line[0].isspace():
                in_record = bool(re.match(r"(pub )?record |(pub )?data ", line))
            found = DECL.match(line)
            if found and not GOAL.search(line) and "-" in found.group(2):
                names.setdefault(found.group(2), path)
                if in_record and line[0].isspace():
                    fields.add(found.group(2))
    for name in list(names):
        if name in imported or name.startswith(("loop-", "returns-", "invariant-loop", "decreases-")) or "-requires" in name:
            print("left:", name, names[name])
            del names[name]
    return names, fields


def spelled(name):
    parts = ["get_or" if p == "getD" else p for p in name.split("-")]
    if parts[0][0].isupper() and parts[0] not in WORDS:
        return "".join(p[0].upper() + p[1:] for p in parts)
    return "_".join(parts)


def code_parts(line, comment):
    """The line's code and its comment."""
    at = line.find(comment)
    while at >= 0 and at > 0 and not line[at - 1].isspace():
        at = line.find(comment, at + 1)
    return (line, "") if at < 0 else (line[:at], line[at:])


def turned(text, names, fields):
    def turn(match):
        name = match.group(1)
        if name not in names:
            return name
        before = text[: match.start()]
        if before.endswith("."):
            chain = re.search(r"[^\s(){}\[\],;:«»\"@λ×→=]*$", before).group(0)
            if not chain.startswith("Rattle.") and name not in fields:
                return name
        return spelled(name)

    return TOKEN.sub(turn, text)


def turn_file(path, comment, names, fields):
    old = open(path, encoding="utf-8").read()
    lines = []
    for line in old.split("\n"):
        code, rest = code_parts(line, comment)
        pieces = re.split(r'("(?:[^"\\]|\\.)*")', code) if comment == "//" else [code]
        lines.append("".join(p if p.startswith('"') else turned(p, names, fields) for p in pieces) + rest)
    new = "\n".join(lines)
    if new != old:
        open(path, "w", encoding="utf-8").write(new)


def turn_page(path, names):
    old = open(path, encoding="utf-8").read()
    new = re.sub(r"`([^`\n]+)`", lambda m: "`" + TOKEN.sub(lambda t: spelled(t.group(1)) if t.group(1) in names else t.group(1), m.group(1)) + "`", old)
    if new != old:
        open(path, "w", encoding="utf-8").write(new)


def tokens():
    found = set()
    for path in antt_files() + sorted(glob.glob("crates/*/src/**/*.rt", recursive=True)):
        for line in open(path, encoding="utf-8"):
            found.update(re.split(r"[\s(){}\[\],;.:«»\"@λ×→=]+", line))
    return found


def main():
    names, fields = declared()
    by_new = collections.defaultdict(list)
    for name in names:
        by_new[spelled(name)].append(name)
    there = tokens()
    for new, olds in sorted(by_new.items()):
        if len(olds) > 1:
            print("fall together:", new, olds)
        if new in there:
            print("there already:", new, olds, names[olds[0]])
    if "--list" in sys.argv:
        return
    for path in antt_files():
        turn_file(path, "--", names, fields)
    for path in sorted(glob.glob("crates/*/src/**/*.rt", recursive=True)):
        turn_file(path, "//", names, fields)
    for path in sorted(glob.glob("crates/*/must-fail/*.edit")):
        turn_file(path, "//", names, fields)
    for path in ["README.md"] + sorted(glob.glob("docs/*.md")):
        turn_page(path, names)
    print(len(names), "names")


main()
