#!/usr/bin/env python3
"""Mends answers after clauses got names: a tuple becomes a record, .0 and .1 become the clauses' names.

usage: mend_clauses.py CRATE-FOLDER LOG
"""
import re
import sys

folder, log = sys.argv[1:3]
lines = open(log).read().split("\n")


def split_top(s):
    parts, depth, cur = [], 0, ""
    for ch in s:
        if ch in "([{":
            depth += 1
        if ch in ")]}":
            depth -= 1
        if ch == "," and depth == 0:
            parts.append(cur)
            cur = ""
        else:
            cur += ch
    if cur.strip():
        parts.append(cur)
    return [p.strip() for p in parts]


todo = {}
for i, l in enumerate(lines):
    m = re.match(r"(\./\S+\.antt):(\d+):(\d+): error: `([^`]*)`: ", l)
    if not m:
        continue
    text = l + " " + " ".join(x for x in lines[i + 1 : i + 4] if x.startswith("  "))
    r = re.search(r"is built with `record \{ (.*?) \}`, not as a tuple", text)
    if r:
        names = [x.split(" = ")[0].strip() for x in r.group(1).split(";")]
        todo.setdefault(m.group(1), []).append((int(m.group(2)), int(m.group(3)), "tuple", names))
        continue
    r = re.search(r"has no field `(\d)` +its fields are (.*?)(?:  |$)", text)
    if r:
        names = re.findall(r"`([^`]*)`", r.group(2))
        todo.setdefault(m.group(1), []).append((int(m.group(2)), int(m.group(3)), int(r.group(1)), names))
n = 0
for f, items in todo.items():
    p = folder + "/" + f
    t = open(p, encoding="utf-8").read()
    for line, col, kind, names in sorted(items, reverse=True, key=lambda x: x[:2]):
        ls = t.split("\n")
        at = sum(len(x) + 1 for x in ls[: line - 1]) + col - 1
        if kind == "tuple":
            k = t.index("(", at - 1 if t[at - 1] == "(" else at) if t[at] != "(" else at
            depth, j = 0, k
            while True:
                if t[j] in "([{":
                    depth += 1
                if t[j] in ")]}":
                    depth -= 1
                    if depth == 0:
                        break
                j += 1
            parts = split_top(t[k + 1 : j])
            while len(parts) < len(names) and parts[-1].startswith("(") and parts[-1].endswith(")") and len(split_top(parts[-1][1:-1])) > 1:
                parts = parts[:-1] + split_top(parts[-1][1:-1])
            if len(parts) > len(names):
                parts = parts[: len(names) - 1] + ["(" + ", ".join(parts[len(names) - 1 :]) + ")"]
            if len(parts) != len(names):
                print("parts", f, line, len(parts), names)
                continue
            t = t[:k] + "record { " + "; ".join(f"{a} = {b}" for a, b in zip(names, parts)) + " }" + t[j + 1 :]
            n += 1
        else:
            seg = t[at - 1 :]
            m = re.match(r"[^\s(){},]*?\.(requires|ensures)\.%d(?![\w])" % kind, t[at - 1 : at + 200])
            row = ls[line - 1]
            new = re.sub(r"(\.(?:requires|ensures))\.%d(?!\w)" % kind, lambda g: g.group(1) + "." + names[kind], row)
            if new == row:
                new = re.sub(r"(?<=\w)\.%d(?!\w)" % kind, "." + names[kind], row, count=1)
            ls[line - 1] = new
            t = "\n".join(ls)
            n += 1
    open(p, "w", encoding="utf-8").write(t)
print(n, "places")
