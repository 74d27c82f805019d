#!/usr/bin/env python3
"""Brings the repository's own names to the spelling of today's Rattle: definitions, lemmas, fields and variables of specs/ and proofs/ that have inner capitals
get underscores. Files of specs/ and proofs/, clauses in src/, must-fail edits and, with --pages, words in backquotes of README and docs/.
Run once, at the top, after port.py. Types, modules, constructors and functions of src/ keep their names."""
import glob
import re
import sys

TOKEN = re.compile(r"[A-Za-z0-9_'₀-₉⁺⁻-]+")
DEFINED = re.compile(r"(?m)^[ \t]*(?:abbrev |unfoldable )?(?:pub )?(?:abbrev |unfoldable |record |data )?([^\s:(){}-][^\s:(){}]*)(?:[ \t]+[({\w][^:=\n]*)?[ \t]+:[ \t\n]")
# a lemma's name that would fall together with a definition's keeps its dashes
APART = {
    n.replace("-", "_"): n
    for n in ("last-entry", "bits-of-number", "first-group", "sync-at", "next-bit", "four-bytes", "row-read", "bytes-read", "no-digit", "read-back", "last-bit")
}
# functions of src/ that have such a name
NOT_A_LEMMA = re.compile(r"(steps\.last_entry|c\.last_entry)")


def snake(name):
    parts = []
    for part in name.split("-"):
        if re.match(r"[a-z]", part):
            part = re.sub(r"([a-z0-9₀-₉])([A-Z])", lambda m: m[1] + "_" + m[2], part).lower()
        parts.append(part)
    return "-".join(parts)


def files(*patterns):
    for pattern in patterns:
        for path in sorted(glob.glob(pattern, recursive=True)):
            if "/out/" not in path:
                yield path


def read(path):
    with open(path, encoding="utf-8") as f:
        return f.read()


def own_names():
    names = set()
    for path in files("crates/*/specs/**/*.antt", "crates/*/proofs/**/*.antt"):
        names |= {m[1] for m in DEFINED.finditer(read(path))}
    return {n: snake(n) for n in names if snake(n) != n}


def turn(path, names):
    text = read(path)
    before = text
    lemmas = path.endswith(".antt")
    functions = {m.end() for m in NOT_A_LEMMA.finditer(text)} | {text.find(w) + len(w) for w in ("-- `last_entry",) if w in text}

    def one(m):
        word = m[0]
        if lemmas and word in APART and m.end() not in functions:
            word = APART[word]
        return names.get(word, word)

    new = TOKEN.sub(one, text)
    if new != before:
        with open(path, "w", encoding="utf-8") as f:
            f.write(new)
        return 1
    return 0


def main():
    names = own_names()
    count = 0
    if "--pages" in sys.argv:
        for path in files("*.md", "docs/*.md", "docs/changes/*.md"):
            text = read(path)
            new = re.sub(r"`[^`\n]+`", lambda m: TOKEN.sub(lambda t: names.get(t[0], t[0]), m[0]), text)
            if new != text:
                with open(path, "w", encoding="utf-8") as f:
                    f.write(new)
                count += 1
    else:
        for path in files("crates/*/specs/**/*.antt", "crates/*/proofs/**/*.antt", "crates/*/src/**/*.rt", "crates/*/must-fail/*.edit"):
            count += turn(path, names)
    for n in sorted(names):
        print(n, names[n])
    print(f"{len(names)} names, {count} files", file=sys.stderr)


if __name__ == "__main__":
    main()
