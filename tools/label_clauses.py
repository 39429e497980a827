#!/usr/bin/env python3
"""Names the clauses that port.py left as fact_1, fact_2, .. by what they say.

usage: label_clauses.py            at the top of the repository, once, after port.py and before respell.py
"""
import glob
import re

# the first pattern that the clause's text fits gives its name
NAMES = [
    (r"^rows\.now ≡ table", "rows"),
    (r"^names\.now ≡ nameTable", "names"),
    (r"^words\.now ≡ wordsTable", "words"),
    (r"^opcode (< 53|≡ get_or)", "opcode"),
    (r"^which < 4", "which"),
    (r"^number < 26", "number"),
    (r"^put ≤ length buffer\.old", "room"),
    (r"^put \+ trailerSize ≤ length buffer\.old", "room"),
    (r"^spansRefusal ", "spans"),
    (r"^Here ", "here"),
    (r"^(StepReady|Ready) ", "ready"),
    (r"^[12] ≤ height", "least"),
    (r"^height ≤ 64", "most"),
    (r"^IsRow ", "row"),
    (r"^ReachedStart ", "reached"),
    (r"^Standing ", "standing"),
    (r"^Filling ", "filling"),
    (r"^Room ", "room"),
    (r"^Unmarked ", "unmarked"),
    (r"^Acceptable ", "acceptable"),
    (r"^IsPrefixLen ", "prefix"),
    (r"^length mask\.now ", "mask"),
    (r"^heights\.old ≡ replicate", "blank"),
    (r"^count ≤ 8$", "count"),
    (r"^count ≤ height", "count"),
    (r"^count ≡ operandBytes", "count"),
    (r"^at \+ count ≤ length bytes\.now", "within"),
    (r"^(next|nextStart) e\.now at ≤ length e\.now", "within"),
    (r"^at \+ length bytes\.now ≤ length out\.old", "room"),
    (r"^length bytes\.now ≤ (65536|record-most)", "size"),
    (r"^length e\.now ≤ expression-most", "size"),
    (r"^size < 65537", "size"),
    (r"^width ≤ 16", "width"),
    (r"^width ≤ length bytes\.now", "one"),
    (r"^length bytes\.now ≤ width \+ width", "two"),
    (r"^at < length e\.now", "at"),
    (r"^at ≤ length line\.now", "at"),
    (r"^T \(isWidth count\)", "width"),
    (r"^depth < height", "depth"),
    (r"^height ≤ stack-cells", "height"),
    (r"^height - count < stack-cells", "room"),
    (r"^length cells\.old ≡ stack-cells", "cells"),
    (r"^\(1 ≤ count\) × \(count ≤ 8\)", "asked"),
    (r"^kind ≡ kind_at", "kind"),
    (r"^\(at < 1024\) × \(count ≤ 341\)$", "sizes"),
    (r"^\(at < 1024\) × ", "start"),
    (r"^\(kind-goto ≤ kind → ", "room"),
    (r"^\(kind-goto ≤ kind_at ", "jump"),
    (r"^\(next ≡ nextStart e\.now at\) × \(kind", "straight"),
    (r"^\(?next ≡ nextStart", "next"),
]
CLAUSE = re.compile(r"(requires|ensures) fact_(\d+) \{ (.*) \}$")


def main():
    for path in sorted(glob.glob("crates/*/src/**/*.rt", recursive=True)):
        with open(path, encoding="utf-8") as f:
            lines = f.read().split("\n")
        turned, here = [], set()
        for line in lines:
            m = CLAUSE.search(line)
            if not m:
                turned.append(line)
                if not re.search(r"\b(requires|ensures)\b", line):
                    here = set()
                continue
            name = next((n for pattern, n in NAMES if re.search(pattern, m[3])), None)
            if name is None or (m[1], name) in here:
                raise SystemExit(f"label_clauses.py: {path}: no name of its own for: {line.strip()}")
            here.add((m[1], name))
            turned.append(line[: m.start()] + f"{m[1]} {name} {{ {m[3]} }}")
        if turned != lines:
            with open(path, "w", encoding="utf-8") as f:
                f.write("\n".join(turned))


main()
