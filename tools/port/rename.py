#!/usr/bin/env python3
"""Brings this repository's own definitions and lemmas to snake case, after port.py.

usage: python3 tools/port/rename.py [FOLDER]

Run once on a tree that port.py has turned. A name is turned where it is declared in specs/ or proofs/ of a crate and
is in camel case from a lower letter, or has a dash between words; a dash at a name with a capital stays. A lemma that
would get its definition's name ends in _lem. Names of the kit's libraries, names that the check makes and names of
src/ stay. The crate hex becomes hex_digits, the module steps
of turn turn_steps. It prints the names that fall together in a file.
"""
import os
import re
import sys

ROOT = os.path.abspath(sys.argv[1] if len(sys.argv) > 1 else ".")
DECLARED = re.compile(
    r"^(\s*)((?:pub |abbrev |unfoldable |private |instance |opaque )*)([^\s:(){},;.λ∷]+)\s*:(?!:)\s*(.*)$", re.M
)
NAMED = re.compile(r"^(\s*)(?:pub |abbrev |unfoldable )*(record|data|module)\s+(?:pub |unfoldable |abbrev )*([^\s({:]+)", re.M)
TOKEN = re.compile(r"[^\s(){}\[\],;.λ∷\"`]+")
USE = re.compile(r"^\s*(?:ghost )?use\s+([^\s{]+?)\.?(?:\{([^}]*)\})?(?:\s+as\s+\S+)?;?\s*$", re.M)
OWN = set()


def bad(n):
    return "·" not in n and ("-" in n or re.match(r"[a-z][a-z0-9]*[A-Z]", n)) and re.search(r"[A-Za-z]", n)


def snake(n):
    parts = n.split("-")
    out = [parts[0]]
    for a, b in zip(parts, parts[1:]):
        out.append("-" if re.match(r"[A-Z]", a) or re.match(r"[A-Z][a-z]", b) else "_")
        out.append(b)
    words = "".join(out).split("-")
    return "-".join(
        re.sub(r"([a-z0-9])([A-Z])", lambda m: m.group(1) + "_" + m.group(2).lower(), w) if re.match(r"[a-z]", w) else w
        for w in words
    )


def files(root):
    for c in sorted(os.listdir(root + "/crates")):
        for sub in ("specs", "proofs", "src"):
            top = f"{root}/crates/{c}/{sub}"
            for d, ds, fs in os.walk(top):
                ds[:] = [x for x in ds if x != "out"]
                for f in sorted(fs):
                    if f.endswith((".antt", ".rt")):
                        p = os.path.join(d, f)
                        of_function = sub == "proofs" and d != top
                        yield p, sub, of_function


def declared():
    defs, lemmas, texts = {}, {}, {}
    for p, sub, fn in files(ROOT):
        t = texts[p] = (open(p, encoding="utf-8").read(), sub, fn)
        if sub == "src":
            continue
        for m in DECLARED.finditer(t[0]):
            n = m.group(3)
            if re.match(r"(tie|goal)\.|\{M : Type 1\}", m.group(4)):
                continue
            (defs if sub == "specs" else lemmas).setdefault(n, set()).add(p)
        for m in NAMED.finditer(t[0]):
            defs.setdefault(m.group(3), set()).add(p)
    return defs, lemmas, texts


def imports(text):
    """What a file imports: names of own modules, and names of other libraries."""
    own, other = set(), set()
    for m in USE.finditer(text):
        path, names = m.group(1), m.group(2)
        mine = re.match(r"Rattle\.(\w+)", path)
        mine = mine and mine.group(1) in OWN and ".declared." not in path and not re.search(r"\.(Statement|Tie|Symbol|Code|Met|Goals|Given|Key)$", path)
        got = own if mine else other
        for n in (names or "").split(","):
            n = n.strip()
            if n:
                got.add(n.split(" as ")[0].strip())
                if " as " in n:
                    other.add(n.split(" as ")[1].strip())
        if not names and "." in path:
            got.add(path.rsplit(".", 1)[1])
    return own, other


def main():
    OWN.update(os.listdir(ROOT + "/crates"))
    defs, lemmas, texts = declared()
    every = {**{n: 1 for n in defs}, **{n: 1 for n in lemmas}}
    to = {n: snake(n) for n in every if bad(n)}
    where = {}
    for p, (t, sub, fn) in texts.items():
        for n in set(TOKEN.findall(t)):
            if n in every:
                where.setdefault(n, set()).add(p)
    # where two that fall together stand in one file, the definition has the plain name and the lemma ends in _lem
    groups = {}
    for n in every:
        groups.setdefault(to.get(n, n), []).append(n)
    for v, ns in groups.items():
        if len(ns) < 2:
            continue
        ns.sort(key=lambda n: (n not in defs, "-" in n, n))
        first = ns[0]
        for n in ns[1:]:
            if where.get(n, set()) & where.get(first, set()):
                if n in defs:
                    print("two definitions:", first, n)
                to[n] = v + "_lem"
    to = {n: v for n, v in to.items() if v != n}
    clashes = 0
    for p, (t, sub, fn) in texts.items():
        own, other = imports(t)
        here = {m.group(3) for m in DECLARED.finditer(t) if not re.match(r"(tie|goal)\.|\{M : Type 1\}", m.group(4))} if sub != "src" else set()
        stays = {n for n in to if n in other and n not in own}

        def allowed(n, before):
            if n in stays or (not bad(n) and n not in here and n not in own):
                return False
            if re.search(r"Rattle\.[\w.]*\.$", before) and not bad(n):
                return False
            if re.search(r"(?:^|[\s(])(?:mathlib|lib|native|Prim|borrow|logic|denote|Rattle\.std)(?:\.[\w']+)*\.$", before):
                return False
            if fn or sub == "src":
                return n in own or n in here or (before.endswith(".") and n in fields) or (n in defs and re.search(r"Rattle\.[\w.]*\.$", before) is not None) or re.search(r"\w\.$", before) and n in own_alias(t)
            return True

        old = set(TOKEN.findall(t))
        out, last, new = [], 0, set()
        for m in TOKEN.finditer(t):
            n = m.group(0)
            if n in to and allowed(n, t[max(0, m.start() - 120) : m.start()].rsplit("\n", 1)[-1]):
                out.append(t[last : m.start()])
                out.append(to[n])
                last = m.end()
                new.add(to[n])
        out.append(t[last:])
        both = (new & held_names(t, sub)) - set(to)
        if both:
            clashes += len(both)
            print("falls together:", os.path.relpath(p, ROOT), sorted(both))
        made = "".join(out)
        if made != t:
            open(p, "w", encoding="utf-8").write(made)
    with open(os.path.join(ROOT, "tools/port/renamed.tsv"), "w") as f:
        for n in sorted(to):
            f.write(f"{n}\t{to[n]}\n")
    print(f"{len(to)} names, {clashes} fall together")


def held_names(t, sub):
    """The names of a file that a turned name could fall on: of a source its parameters, fields and variables."""
    if sub == "src":
        return set(re.findall(r"(?<![\w:])(?:let (?:mut )?)?(\w+):(?!:)", t)) | set(re.findall(r"\blet (?:mut )?(\w+)\b", t))
    bare = USE.sub(lambda m: "use {%s}" % (m.group(2) or ""), t)
    return {m.group(0) for m in TOKEN.finditer(bare) if not bare[: m.start()].endswith(".")}


def own_alias(t):
    """Names that a file reaches through an alias of an own module, as E.x after 'use Rattle.c.specs.M as E'."""
    names = set()
    for m in re.finditer(r"use\s+(Rattle\.(\w+)\.[\w.]+)\s+as\s+(\w+)", t):
        if m.group(2) in OWN:
            names |= set(re.findall(r"(?<![\w.])" + m.group(3) + r"\.([^\s(){}\[\],;.λ∷\"`]+)", t))
    return names


fields = set()


def gather_fields():
    for p, sub, fn in files(ROOT):
        if sub == "src" or fn:
            continue
        t = open(p, encoding="utf-8").read()
        for m in re.finditer(r"record [^\n]*where\n((?:\s+.*\n|\n)*)", t):
            for g in re.finditer(r"^\s+([^\s:(){},;.λ∷]+)\s*:", m.group(1), re.M):
                fields.add(g.group(1))
        for m in re.finditer(r"record\s*\{([^}]*)\}", t):
            for g in re.finditer(r"(?:^|;)\s*([^\s:(){},;.λ∷=]+)\s*:", m.group(1), re.M):
                fields.add(g.group(1))


# Constructors that stand several in a line, and binders with names of the source.
MORE = {
    "isStored": "is_stored",
    "isJoined": "is_joined",
    "isLate": "is_late",
    "isLifecycle": "is_lifecycle",
    "didPush": "did_push",
    "didCount": "did_count",
    "didJoin": "did_join",
    "newSet": "new_set",
    "coherentAccess": "coherent_access",
    "minimumSeparationNanos": "minimum_separation_nanos",
}


def more():
    for p, sub, fn in files(ROOT):
        t = open(p, encoding="utf-8").read()
        made = re.sub(r"(?<![\w'-])(" + "|".join(MORE) + r")(?![\w'-])", lambda m: MORE[m.group(1)], t)
        if made != t:
            open(p, "w", encoding="utf-8").write(made)


# Rattle has a library named hex.
CRATES = {"hex": "hex_digits"}


def move_crates():
    for a, b in CRATES.items():
        os.rename(f"{ROOT}/crates/{a}", f"{ROOT}/crates/{b}")
        listed = open(f"{ROOT}/crates.txt").read()
        open(f"{ROOT}/crates.txt", "w").write(re.sub(rf"(?m)(^| ){a}(?=[ :\n])", rf"\1{b}", listed))
        for p, sub, fn in files(ROOT):
            t = open(p, encoding="utf-8").read()
            made = re.sub(rf"(?<![\w.:]){a}::", f"{b}::", re.sub(rf"\bRattle\.{a}\.", f"Rattle.{b}.", t))
            if made != t:
                open(p, "w", encoding="utf-8").write(made)


# turn's module has the name of a library.
MODULES = {("turn", "steps"): "turn_steps"}


def move_modules():
    for (c, a), b in MODULES.items():
        here = f"{ROOT}/crates/{c}"
        os.rename(f"{here}/src/{a}.rt", f"{here}/src/{b}.rt")
        if os.path.isdir(f"{here}/proofs/{a}"):
            os.rename(f"{here}/proofs/{a}", f"{here}/proofs/{b}")
        for p, sub, fn in files(ROOT):
            t = open(p, encoding="utf-8").read()
            made = re.sub(rf"(?<![\w.:]){c}::{a}::", f"{c}::{b}::", t)
            made = re.sub(rf"\bRattle\.{c}\.(proofs|specs\.declared|specs\.contracts)\.{a}\.", rf"Rattle.{c}.\1.{b}.", made)
            if f"/crates/{c}/" in p:
                made = re.sub(rf"\bcrate::{a}::", f"crate::{b}::", made)
                made = re.sub(rf"(?m)^(pub )?mod {a};", rf"\1mod {b};", made)
            if made != t:
                open(p, "w", encoding="utf-8").write(made)


if __name__ == "__main__":
    if "--modules" not in sys.argv:
        gather_fields()
        main()
        more()
        move_crates()
    move_modules()
