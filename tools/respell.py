#!/usr/bin/env python3
"""Spells the repository's own definitions, lemmas and fields in snake case: linkCore -> link_core, link-base -> link_base.

usage: respell.py [--dry]     at the top of the repository, once, after the toolchain's own script has turned it

Names of the library, of Rattle's making, of src/'s functions and of C's exports stay. It prints each name that falls together with another.
The table goes to docs/respelled.tsv's place on standard output with --table.
"""
import glob
import re
import sys

W = r"[^\s(){}.;,@\"«»\[\]\\`|]+"
def antt(kind):
    return sorted(f for f in glob.glob(f"crates/*/{kind}/**/*.antt", recursive=True) if "/out/" not in f)


def read(path):
    with open(path, encoding="utf-8") as it:
        return it.read()


def snake(name):
    name = re.sub(r"(?<=[a-z0-9])([A-Z])", lambda m: "_" + m.group(1).lower(), name) if name[0].islower() else name
    return re.sub(r"(?<=[\w'₀-₉])-(?=[\w'])", "_", name)


def declared():
    own = {}
    for f in antt("specs") + antt("proofs"):
        text = read(f)
        for line in text.split("\n"):
            m = re.match(r"^\s*(?:(?:abbrev|unfoldable|pub|record|data|ruleset)\s+)*(" + W + r")\s*(?:\(.*\)\s*)?:(?!=)", line)
            if not m:
                continue
            name = m.group(1)
            if f.endswith("Proof.antt") and (re.search(r":\s*tie\.", line) or re.search(r"-spec\b", name) or re.search(r":\s*\{M : Type 1\}", line)):
                continue
            own.setdefault(name, set()).add(f)
    return own


def main(argv):
    dry = "--dry" in argv
    own = declared()
    table = {n: snake(n) for n in own if snake(n) != n and re.match(r"[^\W\d_]", n)}
    # a lemma that would have its function's name gets _lem
    defined = {table.get(n, n) for n in own if any("/specs/" in f for f in own[n])}
    for n in own:
        if table.get(n, n) in defined and not any("/specs/" in f for f in own[n]) and (n in table or any(table.get(k) == n for k in own)):
            table[n] = table.get(n, n) + "_lem"
    table["minus-zero"] = "minus_zero_lem"
    # what a file brings in from the library under a name that is also one of ours stays there
    outside = {}
    library = set()
    for f in antt("specs") + antt("proofs") + sorted(glob.glob("crates/*/src/**/*.rt", recursive=True)):
        text = read(f)
        got = set()
        for m in re.finditer(r"use\s+([\w.·-]+)\.\{([^}]*)\}", text):
            if not m.group(1).startswith("Rattle.") or m.group(1).startswith("Rattle.std"):
                got |= {w for x in m.group(2).split(",") for w in x.strip().split(" as ")}
        outside[f] = got
        library |= got
    new = {}
    for n, t in sorted(table.items()):
        new.setdefault(t, []).append(n)
    for t, ns in sorted(new.items()):
        if len(ns) > 1 or t in own or t in library:
            print(f"together: {t} from {' '.join(ns)}{' and our own' if t in own else ''}{' and the library' if t in library else ''}")
    for n in sorted(set(table) & library):
        print(f"library too: {n} in {sorted(own[n])}")
    files = antt("specs") + antt("proofs") + sorted(glob.glob("crates/*/src/**/*.rt", recursive=True)) + sorted(glob.glob("crates/*/must-fail/*.edit"))
    functions = set()
    for f in glob.glob("crates/*/src/**/*.rt", recursive=True):
        functions |= set(re.findall(r"\bfn (\w+)", read(f)))
    made = {x.replace("_", "-") for x in functions} | set("loop-test slice-known well-formed the-variants type-inv same-length same_length enum-told slice-read slice-write".split())
    changed = 0
    for f in files:
        text = read(f)
        skip = outside.get(f, set())
        proof = f.endswith("Proof.antt")
        code = not f.endswith(".antt")
        seen = {}
        def turn(m, text=text):
            w = m.group(0)
            t = table.get(w)
            seen.setdefault(t if t and w not in skip else w, set()).add(w)
            if not t or w in skip or (code and snake(w) == w):
                return w
            if proof:
                before = text[: m.start()]
                if before.endswith("tie.") or (before.endswith(".") and w in made):
                    return w
                line = before[before.rfind("\n") + 1 :]
                if w in proof_needs:
                    return w
            return t
        proof_needs = set(re.findall(r"(?m)^(" + W + r")\s*:\s*tie\.", text)) if proof else set()
        if f.endswith(".rt"):
            parts = re.split(r'("(?:[^"\\]|\\.)*")', text)
            out = "".join(p if i % 2 else re.sub(W, lambda m, p=p: turn(m, p), p) for i, p in enumerate(parts))
        else:
            out = re.sub(W, turn, text)
        for t, ws in seen.items():
            if len(ws) > 1:
                print(f"in {f}: {t} from {' '.join(sorted(ws))}")
        if out != text:
            changed += 1
            if not dry:
                with open(f, "w", encoding="utf-8") as it:
                    it.write(out)
    for f in ["README.md"] + sorted(glob.glob("docs/*.md") + glob.glob("docs/notes/*.md")):
        if "/PORT" in f:
            continue
        text = read(f)
        out = re.sub(r"`[^`\n]+`", lambda m: re.sub(W, lambda k: table.get(k.group(0), k.group(0)), m.group(0)), text)
        if out != text:
            changed += 1
            if not dry:
                with open(f, "w", encoding="utf-8") as it:
                    it.write(out)
    if "--table" in argv:
        for n, t in sorted(table.items()):
            print(f"{n}\t{t}")
    print(f"respell: {len(table)} names, {changed} files")


main(sys.argv[1:])
