#!/usr/bin/env python3
"""Turns the Proof.antt files of a crate into Invariants.antt and Answers.antt.

usage: python3 tools/port/to_answers.py CRATE NAMES.json [FUNCTION-PATH..]

NAMES.json is what `rt check --generated DIR --old-names` writes in the crate's folder. A file of the old form (tie.close)
is turned; others are left. The old file goes to the folder old-proofs of the temporary files. What it could not place is
printed.
"""
import json
import os
import re
import shutil
import sys
import tempfile

TRIVIAL = {"omega arith", "search rules", "refl", "search rules depth 9", "tt"}


def norm(n):
    n = re.sub(r"[-_]lem$", "", re.sub(r"^Is([A-Z])", lambda m: m.group(1).lower(), n))
    return n.replace("_", "-").lower()


def declarations(text):
    """Top-level pieces: (comment lines, signature name, type, body lines)."""
    lines = text.split("\n")
    out, cur, comment = [], None, []
    sig = re.compile(r"^((?:pub |abbrev |unfoldable |private )*)([^\s:(){},;.]+)\s*:\s*(.*)$")
    for l in lines:
        if l.startswith("use ") :
            out.append(("use", l))
            continue
        m = sig.match(l)
        if m and not l.startswith("--"):
            cur = ["decl", comment, m.group(1), m.group(2), [m.group(3)], []]
            comment = []
            out.append(cur)
            state = "type"
            continue
        if l.startswith("--") :
            comment.append(l)
            continue
        if cur is None:
            if l.strip():
                out.append(("raw", l))
            elif comment:
                out.append(("comment", comment))
                comment = []
            continue
        if not l.strip() and comment:
            continue
        if not cur[5] and l.startswith(" "):
            cur[4].append(l.strip())
        else:
            cur[5].append(l)
    return out


class Names:
    def __init__(self, d):
        self.d = d
        self.old = [p[0] for p in d["places"]]
        self.parent = {p[0]: p[1] for p in d["places"]}
        self.step = {p[0]: p[2] for p in d["places"]}
        self.newplace = dict(zip(self.old, d["places_by_name"]))
        self.typed = {}
        self.found = None
        self.callee = {p[0]: p[3] for p in d["places"]}
        self.arms = dict(zip(self.old, d["arms"]))
        self.args = {a.split(" .")[1]: b.split(" .")[1] for a, b in d["args"] if " ." in a}
        for p, t in zip(self.old, d["typed"]):
            for v, s in t:
                self.typed.setdefault(p, []).append((v, s))
        self.goal = {}
        for i, (a, b) in enumerate(d["needs"]):
            at = d["asked_at"][i][0] if i < len(d["asked_at"]) else "Start"
            self.goal.setdefault(norm(a), (b, at))
        self.loops = {}
        for l, ch in zip(d["loops"], d["changed"]):
            self.loops[norm(l[0][0])] = (l[0][1], l[1], ch)

    def need(self, n):
        n = norm(n)
        for k in (n, re.sub(r"^slice-bounds-", "part-", n), re.sub(r"^overflow-", "", n), re.sub(r"^(is|the)-", "", n)):
            if k in self.goal:
                return self.goal[k]
        return None

    def chain(self, p):
        out = []
        while p is not None:
            out.append(p)
            p = self.parent.get(p)
        return out

    def arm(self, place, step, rest):
        """The field of an arm that stands for old step.rest, and how many words of rest it takes."""
        for p in self.chain(place):
            a = self.arms.get(p)
            for new, s, path in (a[2] if a else []):
                if norm(s) == norm(step) and not new.endswith("-own") and rest[: len(path)] == path:
                    return f"c.{a[0]}.{new}", len(path)
        return None

    def field(self, place, k, name):
        """The new path of the step `name` that is k steps out from place, or None."""
        ch = self.chain(place)
        if name in ("args", "requires", "ranges"):
            return "c." + name
        if name in ("well-formed", "well_formed"):
            return "c.well_formed"
        n = norm(name)
        for exact in (True, False):
            best = None
            for i, p in enumerate(ch):
                s = self.step[p][0]
                same = norm(s) == n if exact else re.sub(r"-?\d+$", "", norm(s)) == re.sub(r"-?\d+$", "", n)
                if s and same and (best is None or abs(i - k) < abs(best[0] - k)):
                    best = (i, "c." + self.step[p][1])
            if best:
                p = ch[best[0]]
                self.found = self.step[p][0]
                self.at = p
                for v, s in self.typed.get(p, []):
                    if norm(s) == norm(self.step[p][0]):
                        return "c.type_inv." + v, best[1]
                return best[1]
        for i, p in enumerate(ch):
            for v, s in self.typed.get(p, []):
                if norm(s) == n or norm(v) == n:
                    return "c.type_inv." + v, p
        return None


def split_path(s):
    return s.split(".")


PATH = re.compile(r"(?<![\w.'-])([A-Za-z_][\w'₀-₉]*)((?:\.[^\s(){}\[\],;.λ∷]+)+)")


def turn_body(lines, names, place, said, args):
    """Rewrites paths in a body whose record argument is c at the place."""
    alias = {"c": 0}
    d_params = names.d["params"]
    text = "\n".join(lines)
    out = []
    pos = 0
    drop = []
    # aliases: let X = c.before.before in
    for m in re.finditer(r"let\s+([A-Za-z_][\w']*)\s*=\s*([A-Za-z_][\w']*)((?:\.before)+)\s+in[ \n]?", text):
        if m.group(2) in alias:
            alias[m.group(1)] = alias[m.group(2)] + m.group(3).count(".before")
            drop.append(m.span())
    for m in re.finditer(r"let\s+([A-Za-z_][\w']*)\s*=\s*([A-Za-z_][\w']*)\s+in[ \n]?", text):
        if m.group(2) in alias:
            alias[m.group(1)] = alias[m.group(2)]
            drop.append(m.span())
    for a, b in sorted(drop):
        out.append(text[pos:a])
        pos = b
    out.append(text[pos:])
    text = "".join(out)
    # a name for what a step was given: written out
    for m in list(re.finditer(r"let\s+([A-Za-z_][\w']*)\s*=\s*([A-Za-z_][\w']*(?:\.[\w'-]+)*\.given)\s+in[ \n]?", text)):
        text = text.replace(m.group(0), "")
        text = re.sub(r"(?<![\w.'-])" + re.escape(m.group(1)) + r"(?=\.)", m.group(2), text)
    # lets left alone on a line
    text = re.sub(r"\n[ \t]*\n", "\n", text)

    def path(m):
        v, rest = m.group(1), m.group(2).split(".")[1:]
        if v not in alias:
            return m.group(0)
        k = alias[v]
        while rest and rest[0] == "before":
            k += 1
            rest.pop(0)
        if not rest:
            ch = names.chain(place)
            if k < len(ch):
                return f"«{ch[k]}»"
            said.append(f"a whole record: {m.group(0)}")
            return m.group(0)
        names.found = None
        got = names.field(place, k, rest[0])
        if names.found:
            a = names.arm(place, names.found, rest[1:])
            if a:
                return ".".join([a[0]] + rest[1 + a[1]:])
        if got is None:
            said.append(f"no step {rest[0]} ({m.group(0)}) at {place}: {[names.step[p][0] for p in names.chain(place)]}")
            return m.group(0)
        if isinstance(got, tuple):
            if rest[1:2] == ["given"]:
                return ".".join([got[0]] + rest[2:])
            got = got[1]
            if not got.startswith("c."):
                said.append(f"type of {rest} at {place}")
                return m.group(0)
        if names.found and names.callee.get(names.at):
            rest = named(rest, names.callee[names.at])
        if rest[0] == "requires":
            rest = named(rest, names.fn)
        f = d_params.get(names.callee.get(names.at)) if names.found else None
        if f and rest[1:2] == ["new"]:
            i = 2
            while i < len(rest) and rest[i] == "1":
                i += 1
            if i < len(rest) and rest[i] == "0" and i - 2 < len(f):
                rest = [rest[0], "new", f[i - 2]] + rest[i + 1 :]
        if rest[0] in ("args", "ranges") and rest[0] == got[2:] and len(rest) > 1:
            rest[1] = rest[1].replace("-", "_")
        return ".".join([got] + rest[1:])

    def stepped(m):
        """let x = c.before.f in: what x.new.1.0 is, by f's parameters."""
        names.found = None
        v, rest = m.group(2), m.group(3).split(".")[1:]
        if v not in alias or not rest:
            return
        k = alias[v]
        while rest and rest[0] == "before":
            k += 1
            rest.pop(0)
        if len(rest) == 2 and rest[1] == "ensures":
            names.field(place, k, rest[0])
            if names.found and CLAUSES.get(names.callee.get(names.at), {}).get("ensures"):
                promised[m.group(1)] = names.callee[names.at]
            return
        if len(rest) != 1:
            return
        names.field(place, k, rest[0])
        f = d_params.get(names.callee.get(names.at)) if names.found else None
        if f:
            steps[m.group(1)] = f
        if names.found and names.callee.get(names.at):
            callees[m.group(1)] = names.callee[names.at]

    steps = {}
    callees = {}
    promised = {}
    for m in re.finditer(r"let\s+([A-Za-z_][\w']*)\s*=\s*([A-Za-z_][\w']*)((?:\.[\w'-]+)+)\s+in", text):
        stepped(m)
    text = PATH.sub(path, text)
    text = text.replace(".type-inv", ".type_inv")
    text = re.sub(r"c\.type_inv\.[\w'-]+(?:\.[01])+(?![\w.])", "(search rules)", text)
    text = re.sub(r"c\.[\w'-]+\.given\.0\.1(?![\w.])", "(search rules)", text)
    text = re.sub(r"record \{ sfits = \(search rules\) \}", "search rules", text)
    for a, b in FIELDS.items():
        if a in text:
            text = re.sub(r"(?<=\.)" + re.escape(a) + r"(?![\w'-])", b, text)
            text = re.sub(r"(?<![\w.'-])" + re.escape(a) + r"(?= = )", b, text)
    text = re.sub(r"not-(?:true|false)\s+(?:\([^()]*\)|[^\s()]+)\s+(c\.if-not-[^\s)]*\.(?:true|false))(?![\w'-])", r"\1", text)
    for v, fn in promised.items():
        def of(m):
            return ".".join([v] + named(["ensures"] + m.group(1).split(".")[1:], fn)[1:])
        text = re.sub(r"(?<![\w.'-])" + re.escape(v) + r"((?:\.[01])+)(?![\w'])", of, text)
    ch = names.chain(place)
    for v, k in alias.items():
        if v != "c" and k < len(ch):
            text = re.sub(r"(?<![\w.'«-])" + re.escape(v) + r"(?![\w.'»-])", "«" + ch[k] + "»", text)
    for v, fn in callees.items():
        def clause(m):
            return ".".join([v] + named(m.group(1).split(".")[1:], fn))
        text = re.sub(r"(?<![\w.'-])" + re.escape(v) + r"((?:\.(?:ensures|[\w'-]+))+)", clause, text)
    for v, f in steps.items():
        def at(m):
            n = m.group(1).count("1")
            return f"{v}.new.{f[n]}" if n < len(f) else m.group(0)
        text = re.sub(r"(?<![\w.'-])" + re.escape(v) + r"\.new((?:\.1)*)\.0(?![\w'-])", at, text)
    for a, b in names.args.items():
        text = re.sub(r"\." + re.escape(a) + r"(?![\w'-])", "." + b, text)
    for v in alias:
        if v != "c" and re.search(r"(?<![\w.'-])" + re.escape(v) + r"(?![\w'-])", text):
            said.append(f"alias {v} still used")
    return text.split("\n")


def parameters(crate, path):
    """The parameter names of a function, from the source."""
    want = path.split("/")
    fn = want[-1].lstrip("+")
    mods = [w for w in want[:-1] if w[0].islower()]
    files = []
    src = f"crates/{crate}/src"
    if mods:
        files = [f"{src}/{'/'.join(mods)}.rt"]
    files += [f"{src}/lib.rt", f"{src}/main.rt"]
    for f in files:
        if os.path.exists(f):
            t = open(f).read()
            typ = [w for w in want[:-1] if w[0].isupper()]
            if typ:
                m = re.search(r"impl[^{]*\b" + typ[0] + r"\b[^{]*\{", t)
                if m:
                    t = t[m.start():]
            m = re.search(r"fn " + fn + r"\s*(?:<[^>]*>)?\(([^)]*)\)", t)
            if m:
                ps = []
                for a in re.split(r",(?![^\[]*\])", m.group(1)):
                    a = a.strip()
                    if not a:
                        continue
                    if "self" in a.split(":")[0]:
                        ps.append("self")
                    else:
                        ps.append(a.split(":")[0].replace("mut ", "").strip())
                return ps
    return []


ATOM = r"(?:[A-Za-z_][\w']*(?:\.before)*|\([A-Za-z_][\w']*(?:\.before)*\))"


def bare(a):
    return a[1:-1] if a.startswith("(") else a


def expand(text):
    """Writes out names for places (start c = c.before.before) and for what is read there (S c = state_of c.args.x)."""
    nav, macro = {}, {}
    piece = re.compile(r"(?m)^((?:abbrev )?)([^\s:(){}]+) : (tie\.\S+(?: (?:invariant|decreases)-\S+)*) → ([^\n]*(?:\n  [^\n]*)*)\n((?:unfolding [^\n]*\n)?)\2 (\w+) =([^\n]*(?:\n[ ]+[^\n]*)*)\n?")
    for m in list(piece.finditer(text)):
        name, res, v, body = m.group(2), m.group(4), m.group(6), m.group(7).strip()
        if res.startswith("tie.") and re.fullmatch(re.escape(v) + r"(\.before)*|[^\s(]+ \(?[\w.]+\)?", body):
            nav[name] = (v, body)
        elif m.group(1):
            macro[name] = (v, body)
        else:
            continue
        text = text.replace(m.group(0), "")
    if not nav and not macro:
        return text
    for _ in range(30):
        before = text
        for n, (v, body) in nav.items():
            def go(m):
                a = bare(m.group(1))
                b = re.sub(r"(?<![\w.'-])" + re.escape(v) + r"(?![\w'-])", a, body)
                return b if re.fullmatch(ATOM, b) else "(" + b + ")"
            text = re.sub(r"(?<![\w.'-])" + re.escape(n) + r" (" + ATOM + r")(?![\w'-])", go, text)
        text = re.sub(r"\(([A-Za-z_][\w']*(?:\.before)+)\)", r"\1", text)
        for n, (v, body) in macro.items():
            def put(m):
                a = bare(m.group(1))
                return "(" + re.sub(r"(?<![\w.'-])" + re.escape(v) + r"(?![\w'-])", a, body) + ")"
            text = re.sub(r"(?<![\w.'-])" + re.escape(n) + r" (" + ATOM + r")(?![\w'-])", put, text)
        if text == before:
            break
    text = re.sub(r"\(\(([^()]*)\)\)", r"(\1)", text)
    return text


def places_in_bodies(text):
    """let a = c.before.before in: written out in each declaration, so that (S a) can be expanded."""
    out = []
    for part in re.split(r"(?m)(?=^(?:pub |abbrev )*[^\s:(){}]+ : )", text):
        for _ in range(20):
            m = re.search(r"let ([A-Za-z_][\w']*) = ([A-Za-z_][\w']*(?:\.before)*) in[ \n]?", part)
            if not m:
                break
            rest = part[m.end():]
            rest = re.sub(r"(?<![\w.'-])" + re.escape(m.group(1)) + r"(?![\w'-])", m.group(2), rest)
            part = part[: m.start()] + rest
        out.append(part)
    return "".join(out)


def clause_names(root="."):
    """The names of the clauses of each function, where a kind has several: {(crate, words): {kind: [names]}}."""
    got = {}
    for c in os.listdir(f"{root}/crates"):
        for folder, ds, fs in os.walk(f"{root}/crates/{c}/src"):
            for f in fs:
                if not f.endswith(".rt"):
                    continue
                rel = os.path.relpath(os.path.join(folder, f), f"{root}/crates/{c}/src")[:-3]
                mods = [] if rel in ("lib", "main") else rel.split("/")
                typ = None
                fn = None
                for l in open(os.path.join(folder, f), encoding="utf-8"):
                    m = re.match(r"impl(?:<[^>]*>)?\s+(?:\w+\s+for\s+)?(\w+)", l)
                    if m:
                        typ = m.group(1)
                    if re.match(r"\}", l):
                        typ = None
                    m = re.match(r"\s*(?:pub(?:\([^)]*\))? )?(?:const )?fn (\w+)", l)
                    if m:
                        fn = "::".join([c] + mods + ([typ] if typ else []) + [m.group(1)])
                        got[fn] = {"ensures": [], "requires": []}
                    m = re.match(r"\s*(ensures|requires) (\w+) \{", l)
                    if m and fn:
                        got[fn][m.group(1)].append(m.group(2))
    return got


CLAUSES = clause_names()


def record_fields(root="."):
    got = {}
    renamed = dict(l.rstrip("\n").split("\t") for l in open(f"{root}/tools/port/renamed.tsv", encoding="utf-8"))
    found = set()
    for c in os.listdir(f"{root}/crates"):
        for sub in ("specs", "proofs"):
            top = f"{root}/crates/{c}/{sub}"
            if not os.path.isdir(top):
                continue
            for f in os.listdir(top):
                if f.endswith(".antt"):
                    t = open(f"{top}/{f}", encoding="utf-8").read()
                    for m in re.finditer(r"record [^\n]*where\n((?:[ ]+[^\n]*\n|\n)*)", t):
                        found |= set(re.findall(r"(?m)^\s+(?:pub )?([\w']+)\s*:", m.group(1)))
    return {a: b for a, b in renamed.items() if "-" in a and b in found}


FIELDS = record_fields()


def named(rest, fn):
    """ensures.1.0 of several named clauses: the clause's name."""
    for i in (0, 1):
        if len(rest) > i + 1 and rest[i] in ("ensures", "requires"):
            names = CLAUSES.get(fn, {}).get(rest[i], [])
            if not names:
                return rest
            k, j = 0, i + 1
            while k < len(names) - 1 and j < len(rest) and rest[j] == "1":
                k += 1
                j += 1
            if k < len(names) - 1:
                if j >= len(rest) or rest[j] != "0":
                    return rest
                j += 1
            return rest[: i + 1] + [names[k]] + rest[j:]
    return rest


def turn(crate, path, d, root="."):
    folder = f"crates/{crate}/proofs/{path}"
    text = open(f"{folder}/Proof.antt", encoding="utf-8").read()
    if "Tie as tie" not in text:
        return None
    if re.search(r"(?m)^(?:abbrev )?[^\s:(){}]+ : tie\.\S+(?: (?:invariant|decreases)-\S+)* → ", text):
        for _ in range(6):
            new = places_in_bodies(expand(text))
            if _ == 0:
                kept = text
            if new == text:
                break
            text = new
            # definitions were taken out at the first turn: keep them for the next ones
            defs = "".join(m.group(0) for m in re.finditer(r"(?m)^(?:abbrev )?([^\s:(){}]+) : tie\.\S+(?: (?:invariant|decreases)-\S+)* → (?:[^\n]*(?:\n  [^\n]*)*)\n(?:unfolding [^\n]*\n)?\1 \w+ =[^\n]*(?:\n[ ]+[^\n]*)*\n?", kept))
            text = defs + "\n" + text
        text = expand(text)
    names = Names(d)
    names.fn = "::".join([crate] + path.split("/"))
    said = []
    mod = f"Rattle.{crate}.proofs.{path.replace('/', '.')}"
    pieces = declarations(text)
    args = parameters(crate, path)
    head, uses, inv, ans = [], [], [], []
    helpers = {}
    local = {}
    skipped = []
    for x in pieces:
        if x[0] == "use":
            if re.search(re.escape(mod) + r"\.(Statement|Tie|Reads|Lts)\b", x[1]):
                continue
            uses.append(x[1])
        elif x[0] == "comment":
            head += x[1]
        elif x[0] == "raw":
            said.append("left: " + x[1])
        else:
            _, comment, mods, name, typ, body = x
            if not uses and not head and comment:
                head += comment
                comment = []
            t = " ".join(typ)
            while body and not body[-1].strip():
                body.pop()
            m = re.match(r"tie\.(invariant|decreases|Invariant|Decreases)-([^\s]+)", t)
            if m:
                got = names.loops.get(norm(m.group(2)))
                kind = m.group(1).lower()
                if got is None:
                    said.append(f"no loop for {t}")
                    ans += comment + [f"{mods}{name} : {t}"] + body + [""]
                    continue
                new, vs, ch = got
                unf = [b for b in body if b.startswith("unfolding")]
                rest = [b for b in body if not b.startswith("unfolding")]
                eq = "\n".join(rest)
                m2 = re.match(re.escape(name) + r"((?:\s+[^\s=]+)*)\s*=\s*", eq)
                if not m2:
                    said.append(f"an invariant not read: {name}")
                    continue
                ps = m2.group(1).split()
                ex = eq[m2.end():]
                want = [v if not c else "initial." + v for v, c in zip(vs, ch)] + [v for v, c in zip(vs, ch) if c]
                if len(ps) != len(want):
                    said.append(f"{name}: {len(ps)} parameters {ps}, wanted {want}")
                sub = dict(zip(ps, want))
                ex = re.sub(
                    r"(?<![\w.'₀-₉-])([A-Za-z_][\w'₀-₉]*)(?![\w'₀-₉-])",
                    lambda g: "l." + sub[g.group(1)] if g.group(1) in sub else g.group(0),
                    ex,
                )
                inv += comment + [f"abbrev pub {kind}-{new} : goal.{kind}-{new}"] + unf + [f"{kind}-{new} l = " + ex, ""]
                continue
            m = re.match(r"tie\.(?:Need-)?([^\s]+)", t)
            if m and t.startswith("tie."):
                got = names.need(m.group(1))
                if got is None:
                    if not any(norm(x).endswith(norm(m.group(1)).split("-", 2)[-1]) for x in d["settled"]):
                        said.append(f"no goal for {t}")
                    skipped += comment + [f"{mods}{name} : {t}"] + body + [""]
                    continue
                new, place = got
                unf = [b for b in body if b.startswith("unfolding")]
                rest = [b for b in body if not b.startswith("unfolding")]
                eq = "\n".join(rest)
                m2 = re.match(re.escape(name) + r"((?:\s+[^\s=]+)*)\s*=\s*", eq)
                if not m2:
                    said.append(f"an answer not read: {name}")
                    continue
                ps = m2.group(1).split()
                ex = eq[m2.end():]
                if ex.strip() in TRIVIAL and not unf:
                    continue
                if ps and ps[0] != "c":
                    said.append(f"{name}: parameters {ps}")
                lines = turn_body(ex.split("\n"), names, place, said, args)
                ps = [p for p in ps if p != "κs"]
                first = lines[0].strip()
                if first:
                    lines = [f"{new} {' '.join(ps)} = {lines[0].rstrip()}"] + lines[1:]
                else:
                    lines = [f"{new} {' '.join(ps)} ="] + lines[1:]
                ans += comment + [f"pub {new} : goal.{new}"] + unf + lines + [""]
                continue
            if name.endswith("-spec") or name.endswith("_spec"):
                continue
            if "reads." in t or "lts." in t or "tie." in t:
                said.append(f"a helper over a place: {name} : {t[:200]}")
                m3 = re.search(r"(?:lts|tie)\.([^\s)]+)", t)
                place = None
                if m3:
                    for p in names.old:
                        if norm(p) == norm(m3.group(1)):
                            place = p
                if place:
                    newp = names.newplace[place]
                    helpers[name] = newp
                    t2 = re.sub(r"(?:lts|tie)\.[^\s)]+(?:\s+reads\.Pre\s+reads\.Post)?(?:\s+(?:invariant|decreases)-[^\s)]+)*", newp, t)
                    tl = turn_body([t2], names, place, said, args)
                    bl = turn_body(body, names, place, said, args)
                    ans += comment + [f"-- of the place {newp}", f"{mods}{name} : {tl[0]}"] + bl + [""]
                    continue
            local[name] = comment + [f"{mods}{name} : {t}"] + body + [""]
            ans += [("local", name)]
    plain = list(uses)
    # what an invariant names stands with it
    moved = []
    todo = "\n".join(inv)
    again = True
    while again:
        again = False
        for n in local:
            if n not in moved and re.search(r"(?<![\w.'-])" + re.escape(n) + r"(?![\w'-])", todo):
                moved.append(n)
                todo += "\n".join(local[n])
                again = True
    if moved:
        first = []
        for n in local:
            if n in moved:
                ls = local[n]
                first += [l if not re.match(r"((abbrev|unfoldable) )?" + re.escape(n) + r" : ", l) else ("abbrev pub " + n + l.split(n, 1)[1]) for l in ls]
        inv = first + inv
        uses.append(f"use {mod}.Invariants.{{{', '.join(moved)}}}")
    flat = []
    for l in ans:
        if isinstance(l, tuple):
            if l[1] not in moved:
                flat += local[l[1]]
        else:
            flat.append(l)
    ans = flat
    if helpers:
        uses.append(f"use {mod}.Goals.{{{', '.join(sorted(set(helpers.values())))}}}")
        goal_now, at_place = None, None
        for i, l in enumerate(ans):
            m = re.match(r"pub (\S+) : goal\.\1$", l)
            m2 = re.match(r"-- of the place (\S+)$", l)
            if m:
                goal_now, at_place = m.group(1), None
            elif m2:
                at_place, goal_now = m2.group(1), None
            elif re.match(r"\S+ : ", l) and not at_place:
                goal_now = None
            back = {v: k for k, v in names.newplace.items()}
            for h, p in helpers.items():
                def call(g):
                    if goal_now:
                        return f"{h} (goal.at.{goal_now} c).{p}"
                    if at_place:
                        ch = names.chain(back[at_place])
                        n = ch.index(back[p]) if back[p] in ch else 0
                        return f"{h} c" + ".before" * n
                    return g.group(0)
                ans[i] = re.sub(r"(?<![\w.'-])" + re.escape(h) + r" (?:c(?![\w.'-])|«[^»]*»)", call, ans[i])
            for w in re.findall(r"«[^»]*»", ans[i]):
                said.append(f"a whole record {w} in {goal_now or at_place}")
    old = os.path.join(tempfile.gettempdir(), "old-proofs", crate, path)
    os.makedirs(old, exist_ok=True)
    shutil.move(f"{folder}/Proof.antt", f"{old}/Proof.antt")
    with open(f"{old}/all.antt", "w") as f:
        f.write("\n".join(head + uses + [f"use {mod}.Goals as goal", ""] + ans + ["-- skipped"] + skipped) + "\n")
    if inv:
        open(f"{folder}/Invariants.antt", "w").write("\n".join(head + plain + [f"use {mod}.Given as goal", ""] + inv).rstrip() + "\n")
    if ans:
        open(f"{folder}/Answers.antt", "w").write("\n".join((head if not inv else []) + uses + [f"use {mod}.Goals as goal", ""] + ans).rstrip() + "\n")
    if not os.listdir(folder):
        os.removedirs(folder)
    for s in said:
        print(f"{crate} {path}: {s}")
    return True


def main():
    crate, file = sys.argv[1], sys.argv[2]
    only = sys.argv[3:]
    d = json.load(open(file))
    done = 0
    for k, v in sorted(d.items()):
        m = re.match(r"Rattle-(\w+)-proofs\.(.*)\.Lts$", k)
        if not m or m.group(1) != crate:
            continue
        path = m.group(2).replace(".", "/")
        if only and path not in only:
            continue
        if os.path.exists(f"crates/{crate}/proofs/{path}/Proof.antt"):
            if turn(crate, path, v):
                done += 1
    print(f"{crate}: {done} turned")


main()
