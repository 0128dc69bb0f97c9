#!/usr/bin/env python3
"""Counts, in the sources of the crates, places that an older form of the language may have left.

Run it at the top: a line for each pattern, with -l also each place. What it finds are candidates;
docs/DESIGN-PASS.md says which were changed and which stay, and why.
"""
import collections
import pathlib
import re
import sys

FILES = sorted(p for p in pathlib.Path("crates").glob("*/src/**/*.rt"))
NAME = r"[A-Za-z_0-9]+"
VISIBLE = r"(?:pub(?:\(crate\))? )?"


def close(text, at):
    """The place behind the bracket that closes the one at `at`."""
    depth = 0
    pairs = {"(": ")", "[": "]", "{": "}"}
    for i in range(at, len(text)):
        if text[i] in pairs:
            depth += 1
        elif text[i] in pairs.values():
            depth -= 1
            if depth == 0:
                return i + 1
    return len(text)


def split(inner):
    """A list at its outermost commas."""
    parts, depth, last = [], 0, 0
    for i, c in enumerate(inner):
        if c in "([{<":
            depth += 1
        elif c in ")]}" or c == ">" and inner[i - 1] != "-":
            depth -= 1
        elif c == "," and depth == 0:
            parts.append(inner[last:i].strip())
            last = i + 1
    parts.append(inner[last:].strip())
    return [p for p in parts if p]


class Function:
    def __init__(self, path, line, name, params, result, clauses, body):
        self.crate = path.parts[1]
        self.where = f"{path}:{line} {name}"
        self.name, self.result, self.clauses, self.body = name, result, clauses, body
        self.params = [p for p in split(params) if "self" not in p.split(":")[0]]


def functions(path, text):
    for m in re.finditer(rf"^ *(?:final )?{VISIBLE}(?:const )?fn ({NAME})(?:<(?:[^()]|\([^()]*\))*?>)?\(", text, re.M):
        end = close(text, m.end() - 1)
        params = text[m.end():end - 1]
        head = re.compile(r"\s*(?:->\s*((?:\[[^\]]*\]|[^{;\[])*?))?\s*(?=\n\s*(?:requires|ensures|where)|\{|;)", re.S).match(text, end)
        result = (head.group(1) or "").strip() if head else ""
        at, clauses = (head.end() if head else end), []
        clause = re.compile(r"\s*(?:where\s+)?(requires|ensures)\s*(?:[a-z_]+\s*)?(?=\{)")
        while True:
            c = clause.match(text, at)
            if not c:
                break
            stop = close(text, c.end())
            clauses.append((c.group(1), " ".join(text[c.end():stop].split())))
            at = stop
        b = re.compile(r"\s*\{").match(text, at)
        body = text[b.end():close(text, b.end() - 1) - 1] if b else ""
        yield Function(path, text.count("\n", 0, m.start()) + 1, m.group(1), params, result, clauses, body)


def shape(body):
    """The body with names and numbers left out."""
    tokens = re.findall(r"[A-Za-z_][A-Za-z_0-9]*|\d+|\S", re.sub(r"//.*", "", body))
    words = {"for", "in", "if", "else", "match", "let", "mut", "return", "while", "Some", "None", "Ok", "Err"}
    return " ".join(t if t in words or not re.match(r"\w", t) else "x" for t in tokens)


def structs(text, kind):
    for m in re.finditer(rf"^ *{VISIBLE}{kind} ({NAME})(?:<.*>)? \{{", text, re.M):
        yield m.group(1), text.count("\n", 0, m.start()) + 1, re.sub(r"//.*", "", text[m.end():close(text, m.end() - 1) - 1])


found = collections.OrderedDict()


def note(label, place):
    found.setdefault(label, []).append(place)


LABELS = [
    "1 enums of one empty case and one with a value",
    "1 flags in structs",
    "1 results whose error is a number",
    "1 yes or no for a success",
    "1 numbers that stand for nothing",
    "2 functions of one shape",
    "2 names in more than one crate",
    "3 loops over numbers",
    "3 while loops",
    "4 functions that are one table of cases",
    "4 comparisons and copies by hand",
    "5 clauses in three functions of a crate and more",
    "5 functions of five parameters and more",
    "5 three parameters that three functions share",
    "6 arrays with a length beside",
    "6 slices with a place and a length beside",
    "7 private enums and function pointers",
]
for label in LABELS:
    found[label] = []

every = []
for path in FILES:
    text = path.read_text()
    every += functions(path, text)
    for name, line, inner in structs(text, "enum"):
        cases = split(re.sub(r"#\[[^\]]*\]", "", inner))
        plain = [c for c in cases if re.fullmatch(NAME, c)]
        if len(cases) == 2 and len(plain) == 1:
            note(LABELS[0], f"{path}:{line} {name}")
    for name, line, inner in structs(text, "struct"):
        fields = [f for f in split(inner) if not f.startswith("ghost")]
        if len(fields) > 1:
            for f in fields:
                if f.endswith(": bool"):
                    note(LABELS[1], f"{path}:{line} {name}.{f}")
        if any(re.search(r": \[.*; .*\]$", f) for f in fields) and any(f.endswith(": usize") for f in fields):
            note(LABELS[14], f"{path}:{line} {name}")
    for m in re.finditer(r"^.*const \w+: u\w+ = (?:4294967295|u\w+::MAX);", text, re.M):
        note(LABELS[4], f"{path}:{text.count(chr(10), 0, m.start()) + 1} {m.group(0).strip()}")
    for m in re.finditer(r"^ *for .* in \(?[a-z0-9_.]+\.\..*$", text, re.M):
        note(LABELS[7], f"{path}:{text.count(chr(10), 0, m.start()) + 1} {m.group(0).strip()}")
    for m in re.finditer(r"^ *while .*$", text, re.M):
        note(LABELS[8], f"{path}:{text.count(chr(10), 0, m.start()) + 1} {m.group(0).strip()}")
    for m in re.finditer(r"^(enum .*|.*: (?:&dyn Fn|fn)\(.*)$", text, re.M):
        note(LABELS[16], f"{path}:{text.count(chr(10), 0, m.start()) + 1} {m.group(0).strip()}")

shapes, names, shared, clauses = (collections.defaultdict(list) for _ in range(4))
for f in every:
    if re.search(r"Result<.*, (?:usize|u8|u32|u64|i32)>$", f.result):
        note(LABELS[2], f.where)
    if re.search(r"Result<bool", f.result):
        note(LABELS[3], f.where)
    form = shape(f.body)
    if len(form.split()) >= 14:
        shapes[form].append(f.where)
    names[f.name].append(f)
    body = " ".join(f.body.split())
    if body.startswith("match ") and close(body, body.find("{")) == len(body) and not re.search(r"[a-z_]\(|\?", body[body.find("{"):]):
        note(LABELS[9], f.where)
    if re.match(r"(same|eq|cmp|copy|clone)\b|copy_", f.name):
        note(LABELS[10], f.where)
    if len(f.params) >= 5:
        note(LABELS[12], f"{f.where} {len(f.params)}")
    words = [p.split(":")[0].replace("mut ", "") for p in f.params]
    for i in range(len(words) - 2):
        shared[f.crate, tuple(words[i:i + 3])].append(f.where)
    for kind, clause in set(f.clauses):
        if kind == "requires":
            clauses[f.crate, clause].append(f.where)
    if re.search(r"\[\w+\]", " ".join(f.params)) and any(re.match(r"(at|start|from|n|count|rows): usize", p) for p in f.params):
        note(LABELS[15], f.where)
for form, places in shapes.items():
    if len(places) > 1:
        note(LABELS[5], " = ".join(places))
for name, places in names.items():
    if len({f.crate for f in places}) > 1 and name not in ("main", "fmt", "table_count", "width", "row_count", "cell"):
        note(LABELS[6], name + ": " + ", ".join(f.crate for f in places))
for (crate, clause), places in clauses.items():
    if len(places) >= 3:
        note(LABELS[11], f"{crate}: {clause} ({len(places)})")
for (crate, words), places in shared.items():
    if len(places) >= 3:
        note(LABELS[13], f"{crate}: {', '.join(words)} ({len(places)})")

for label, places in found.items():
    print(f"{len(places):5}  {label}")
    if "-l" in sys.argv[1:]:
        for place in places:
            print("         ", place)
