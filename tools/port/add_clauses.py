#!/usr/bin/env python3
"""Adds the clauses of impossible cases that a check asks for. usage: add_clauses.py CRATE-FOLDER LOG"""
import re
import sys

folder, log = sys.argv[1:3]
lines = open(log).read().split("\n")
todo = {}
for i, l in enumerate(lines):
    m = re.match(r"(\./\S+\.antt):(\d+):\d+: error: `[^`]*`: write the clauses?(?: `(.*)`)?", l)
    if not m:
        continue
    cs = [m.group(3)] if m.group(3) else []
    if not cs:
        for k in lines[i + 1 :]:
            if k.startswith("  no clause"):
                continue
            if not k.startswith("  "):
                break
            cs.append(k.strip())
    todo.setdefault(m.group(1), []).append((int(m.group(2)), cs))
for f, items in todo.items():
    p = folder + "/" + f
    t = open(p, encoding="utf-8").read().split("\n")
    for line, cs in sorted(items, reverse=True):
        name = re.match(r"\S+", cs[0]).group(0)
        last = None
        for j in range(line - 1, len(t)):
            if re.match(r"\s*" + re.escape(name) + r"(\s|$)(?!\s*:)", t[j]) and " : " not in t[j].split("=")[0]:
                last = j
                ind = re.match(r"\s*", t[j]).group(0)
                k = j + 1
                while k < len(t) and t[k].strip() and len(re.match(r"\s*", t[k]).group(0)) > len(ind):
                    k += 1
                if not (k < len(t) and re.match(re.escape(ind) + re.escape(name) + r"(\s)", t[k])):
                    t[k:k] = [ind + c for c in cs]
                    break
        if last is None:
            print("not found", f, name)
    open(p, "w", encoding="utf-8").write("\n".join(t))
print(sum(len(x) for x in todo.values()), "definitions")
