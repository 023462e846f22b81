#!/usr/bin/env python3
"""Brings the names between backticks in README.md and docs/ to today's spelling: definitions, lemmas and record fields.

usage: python3 tools/port/doc_names.py OLD-FOLDER, a checkout of the last commit before the port
"""
import os
import re
import sys

DECLARED = re.compile(r"^\s*(?:pub |abbrev |unfoldable |private |instance |opaque )*([^\s:(){},;.λ∷]+(?: [^\s:(){},;.λ∷]+)*)\s*:(?!:)", re.M)
NAMED = re.compile(r"^\s*(?:pub |abbrev |unfoldable )*(?:record|data|module)\s+(?:pub |unfoldable |abbrev )*([^\s({:]+)", re.M)


def names(root):
    got = set()
    for folder, ds, fs in os.walk(root + "/crates"):
        ds[:] = [d for d in ds if d != "out"]
        for f in fs:
            if f.endswith(".antt"):
                t = open(os.path.join(folder, f), encoding="utf-8").read()
                for m in DECLARED.finditer(t):
                    got |= set(m.group(1).split())
                got |= set(NAMED.findall(t))
    return got


def snake(n):
    return re.sub(r"([a-z0-9])([A-Z])", lambda m: m.group(1) + "_" + m.group(2).lower(), n.replace("-", "_"))


old, new = names(sys.argv[1]), names(".")
renamed = dict(l.rstrip("\n").split("\t") for l in open("tools/port/renamed.tsv", encoding="utf-8"))
to = {}
for n in old:
    v = renamed.get(n) or (snake(n) if re.search(r"-|[a-z][A-Z]", n) and n[0].islower() else n)
    if v != n and v in new:
        to[n] = v
to.pop("call-list", None)  # a kind of list
to.update({"hex": "hex_digits"})
for f in ["README.md"] + sorted("docs/" + x for x in os.listdir("docs") if x.endswith(".md") and x != "PORT.md"):
    t = open(f, encoding="utf-8").read()

    def span(m):
        return re.sub(r"(?<![\w'/-])([A-Za-z_][\w'-]*)(?![\w'])", lambda g: to.get(g.group(1), g.group(1)) if g.group(1) != "hex" or m.group(0) == "`hex`" else "hex", m.group(0))

    made = re.sub(r"`[^`\n]*`", span, t).replace("crates/hex/", "crates/hex_digits/").replace("`hex/", "`hex_digits/")
    if made != t:
        open(f, "w", encoding="utf-8").write(made)
        print(f)
