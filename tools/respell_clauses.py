#!/usr/bin/env python3
"""Gives the names in the clauses of src/ the spelling of the file's `ghost use` lines, where respell.py left a dash in them.
Refusal 11's number then gets its name back, `runs_off`, which a predicate of pass 3 had taken: that is `runs_off_end`.

usage: respell_clauses.py          at the top of the repository, after respell.py; a second run changes nothing
"""
import glob
import re

WORD = re.compile(r"[^\s(){}.;,@\"«»\[\]\\`]+")
CLAUSE = re.compile(r"\b(requires|ensures|ghost)\b")


def main():
    for path in sorted(glob.glob("crates/*/src/**/*.rt", recursive=True)):
        with open(path, encoding="utf-8") as f:
            lines = f.read().split("\n")
        names = set()
        for line in lines:
            found = re.match(r"\s*ghost use [^{]*\.\{(.*)\};", line)
            if found:
                names.update(it.split(" as ")[-1].strip() for it in found[1].split(","))

        def spelled(m):
            word = m[0].replace("-", "_")
            if "-" not in m[0][1:-1]:
                return m[0]
            return next((it for it in (word, word + "_of", word + "_lem") if it in names), m[0])

        turned = [WORD.sub(spelled, it) if CLAUSE.search(it) and "ghost use" not in it else it for it in lines]
        if turned != lines:
            with open(path, "w", encoding="utf-8") as f:
                f.write("\n".join(turned))

    exchange()


def exchange():
    paths = [p for end in ("rt", "antt", "edit") for p in glob.glob(f"crates/**/*.{end}", recursive=True) if "/out/" not in p]
    texts = {p: open(p, encoding="utf-8").read() for p in sorted(paths)}
    if not any("runs_off_lem" in t for t in texts.values()):
        return
    new = {"runs_off": "runs_off_end", "runs_off_lem": "runs_off"}
    for path, text in texts.items():
        turned = WORD.sub(lambda m: new.get(m[0], m[0]), text)
        if turned != text:
            with open(path, "w", encoding="utf-8") as f:
                f.write(turned)


main()
