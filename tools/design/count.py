"""Counts, for docs/DESIGN-PASS.md, what each point of the design pass looks for in a checkout.

    python3 tools/design/count.py [CHECKOUT]

A count says where to look; the page says what each place is. Only text is read, no proof.
"""
import glob
import os
import re
import sys
from collections import Counter

root = sys.argv[1] if len(sys.argv) > 1 else "."
sources = sorted(glob.glob(os.path.join(root, "crates", "*", "src", "**", "*.rt"), recursive=True))


def code(path):
    """The lines of a file without comments and tests."""
    text = open(path).read()
    text = re.sub(r"#\[cfg\(test\)\]\s*mod tests \{.*", "", text, flags=re.S)
    return [re.sub(r"//.*", "", line) for line in text.split("\n")]


def found(pattern, kind=None):
    hits = []
    for path in sources:
        for line in code(path):
            m = re.search(pattern, line)
            if m:
                crate = os.path.relpath(path, os.path.join(root, "crates")).split(os.sep)[0]
                hits.append((crate, m.group(m.lastindex or 0).strip()))
    return hits


def show(title, hits, names=True):
    print(f"{title}: {len(hits)}")
    if names:
        by_crate = {}
        for crate, name in hits:
            by_crate.setdefault(crate, Counter())[name] += 1
        for crate in sorted(by_crate):
            said = ", ".join(n if k == 1 else f"{n} x{k}" for n, k in sorted(by_crate[crate].items()))
            print(f"    {crate}: {said}")


show("1 own enums", found(r"^\s*(?:pub(?:\(crate\))? )?enum ([A-Z]\w*)"))
show("1 flags in records and parameters", found(r"^\s*(?:pub(?:\(crate\))? )?([a-z_]+): bool,"))
show("1 refusals by their number", found(r"(refused\(out[^)]*, \d+\)|b\"refused \d+\\n\")"))
show("3 loops that count by hand", found(r"^\s*(while|loop)\b(?! let)"))
show("3 loops of the language", found(r"^\s*(for) .* in "))
show("3 iterator chains", found(r"(\.iter\(\)|\.iter_mut\(\)|\.chunks)"), names=False)
show("4 comparing, choosing and converting functions",
     found(r"fn (same\w*|is_same|compare|comes_before|before|lesser|lower|larger|smaller|not_after|minus|plus|wide|pair|bits_of\w*|signed_of|"
           r"bytes_of|number_of|word_of|clamp|by_sign|stopped|not_negative|or_keep|digest_word|both|holds|within|to_\d+|one_more|size|whole\w*|list_size)\b"))
wide = []
for path in sources:
    text = "\n".join(code(path))
    crate = os.path.relpath(path, os.path.join(root, "crates")).split(os.sep)[0]
    for m in re.finditer(r"fn (\w+)(?:<[^>]*>)?\(([^)]*)\)", text):
        if len([x for x in m.group(2).split(",") if x.strip()]) >= 5:
            wide.append((crate, m.group(1)))
show("5 functions with five parameters or more", wide)
facts = Counter()
for path in sources:
    for line in code(path):
        m = re.match(r"\s*requires(?: \w+)? \{ (.*) \}\s*$", line)
        if m:
            for fact in re.split(r" × ", m.group(1)):
                facts[re.sub(r"\b(old|now)\b", "now", fact.strip("() "))] += 1
often = [(f, k) for f, k in facts.most_common() if k >= 3]
print(f"5 facts asked by three functions or more: {len(often)}")
for fact, k in often:
    print(f"    {k} x {fact}")
show("6 arrays of fixed length in records and parameters", found(r"(\w+: (?:&mut |&)?\[[^;\]]+; \w+\])"))
answers = glob.glob(os.path.join(root, "crates", "*", "proofs", "**", "*.antt"), recursive=True)
files = Counter(os.path.basename(p) if os.path.basename(p) in ("Answers.antt", "Invariants.antt") else "lemmas" for p in answers)
lines = sum(len(open(p).read().split("\n")) for p in answers)
print(f"8 proof files: {dict(files)}, {lines} lines")
