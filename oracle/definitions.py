#!/usr/bin/env python3
"""Runs random call lists through the history's definitions, or the model of the source, and holds what they print to the Rust's answers.

    python3 oracle/definitions.py SEED COUNT [rules|source_model]      from the repository's root, with oracle/ built (cargo build --release)

Both compute, so each list becomes an equation that the checker decides by computing: target/definitions/ gets a copy of the
crates with one more file of proofs, and `rt check` of the crate there must pass.
"""
import os, random, shutil, subprocess, sys

CALL_LIST = "oracle/target/release/call-list"

# the file of proofs that has `prints`, up to the line that stands behind it; and the crates beneath
PRINTS = {
    "rules": ("Figures", "-- the writer after a heartbeat 4..6", ["laws", "refusals", "coherent_set", "guids"]),
    "source_model": ("Worked", "-- document 01's list", ["laws", "refusals", "coherent_set", "guids", "rules"]),
}


def whole(n):
    return f"(pos {n})" if n >= 0 else f"(negsuc {-n - 1})"


def optional(n, term):
    return "None" if n is None else f"(Some {term(n)})"


def text(n):
    return "-" if n is None else str(n)


def one_list(rnd):
    """A timeout, the lines, and the calls as terms."""
    timeout = rnd.choice([0, 1, 5, 10, 1000])
    lines, terms, counted, digests = [f"T {timeout}"], [], [], []
    groups = [1, 2][: rnd.randint(1, 2)]
    if rnd.random() < 0.7:
        for g in groups:
            for _ in range(rnd.randint(0, 3)):
                counted.append((g, rnd.randint(1, 2), rnd.randint(0, 2)))
                lines.append("V %d %d %d" % counted[-1])
            if rnd.random() < 0.7:
                digests.append((g, 7))
                lines.append(f"D {g} 7")
    view = "(view (%s) (%s))" % (
        " ∷ ".join(["C %d %d %d" % p for p in counted] + ["[]"]),
        " ∷ ".join(["D %d %d" % p for p in digests] + ["[]"]),
    )
    now, highest = 0, rnd.choice([3, 6, 9])

    def call(line, term):
        lines.append(line)
        terms.append(term)

    def release(time):
        call(f"R {time}", f"R {view} {time}")

    for _ in range(rnd.randint(6, 18)):
        kind, g, w = rnd.random(), rnd.choice(groups), rnd.randint(1, 2)
        r = rnd.choice([0, 1, 2] if rnd.random() < 0.95 else [0, 8])
        if rnd.random() < 0.3:
            now = max(0, now + rnd.choice([-3, 1, 1, 2, 5, 10]))
        if kind < 0.42:
            n, s, d, i = rnd.randint(-1 if rnd.random() < 0.1 else 1, highest), rnd.choice([None, None, 1, 1, 2]), rnd.choice([7, 7, 7, 8]), rnd.randint(0, 99)
            call(f"S {g} {w} {r} {n} {text(s)} {d} {i} {now}", f"S {g} {w} {r} {whole(n)} {optional(s, whole)} {d} {i} {now}")
        elif kind < 0.6:
            n, s, f, o = rnd.randint(1, highest), rnd.choice([None, 1, 1, 1, 2]), rnd.choice([None, 1, 1, 2]), rnd.choice([None, 1, 2, 2, 3, 3, 4])
            call(f"E {g} {w} {r} {n} {text(s)} 7 {text(f)} {text(o)} {now}", f"E {g} {w} {r} {whole(n)} {optional(s, whole)} 7 {optional(f, whole)} {optional(o, whole)} {now}")
        elif kind < 0.7:
            f, l, c, d, x = rnd.randint(-1, 5), rnd.randint(0, 6), rnd.randint(0, 10), rnd.choice([None, 7, 8]), rnd.choice([None, None, 0, 1])
            call(f"H {g} {w} {f} {l} {c} {text(d)} {text(x)}", f"H {g} {w} {whole(f)} {whole(l)} {whole(c)} {optional(d, str)} {optional(x, str)}")
        elif kind < 0.78:
            n = rnd.randint(-1, 8)
            call(f"G {g} {w} {r} {n}", f"G {g} {w} {r} {whole(n)}")
        else:
            release(now)
    release(now + 2000)
    return timeout, lines, terms


def line_term(answer):
    if answer == "ok":
        return "ok"
    if answer in ("stored", "joined", "late"):
        return answer + "'"
    if answer.startswith("refused"):
        return "refused' " + answer.split()[1]
    handed, counts = answer[3:].split("|")
    pairs = ["(%s, %s)" % tuple(x.split(":")) for x in handed.split()]
    return f"out' ({' ∷ '.join(pairs + ['[]'])}) {counts.strip()}"


def main():
    seed, count, crate = int(sys.argv[1]), int(sys.argv[2]), (sys.argv + ["rules"])[3]
    file, behind, beneath = PRINTS[crate]
    rnd = random.Random(seed)
    lists = [one_list(rnd) for _ in range(count)]
    asked = "".join(line + "\n" for _, lines, _ in lists for line in lines)
    answers = iter(subprocess.run([CALL_LIST], input=asked.encode(), capture_output=True, check=True).stdout.decode().splitlines())
    place = "target/definitions"
    shutil.rmtree(place, ignore_errors=True)
    with open("crates.txt") as f:
        known = [line for line in f if line.split(":")[0] in beneath + [crate]]
    for name in beneath + [crate]:
        shutil.copytree(f"crates/{name}", f"{place}/crates/{name}", ignore=shutil.ignore_patterns("must-fail", "out"))
    with open(f"{place}/crates.txt", "w") as f:
        f.writelines(known)
    proofs = f"{place}/crates/{crate}/proofs"
    with open(f"{proofs}/{file}.antt", encoding="utf-8") as f:
        head = f.read().split(behind)[0]
    if "negsuc" not in head:
        head = "use lib.IntN.{negsuc}\n" + head
    with open(f"{proofs}/Lib.antt", "a") as f:
        f.write("pub mod Against\n")
    with open(f"{proofs}/Against.antt", "w", encoding="utf-8") as f:
        f.write(head)
        for k, (timeout, lines, terms) in enumerate(lists):
            printed = [next(answers) for _ in lines]
            kept = [line_term(a) for line, a in zip(lines, printed) if line[0] not in "TVD"]
            f.write(f"c{k} : prints {timeout} ({' ∷ '.join(terms + ['[]'])}) ≡ {' ∷ '.join(kept + ['[]'])}\nunfolding prints\nc{k} = refl\n\n")
    done = subprocess.run(["rt", "check"], cwd=f"{place}/crates/{crate}")
    print(f"{count} passed, 0 failed" if done.returncode == 0 else f"0 passed, {count} failed: the first error above names a list")
    sys.exit(done.returncode)


main()
