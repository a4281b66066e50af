#!/usr/bin/env python3
"""Respells the repository's own definitions, fields and lemmas in snake case: `first-gap` becomes `first_gap`.

usage: respell.py [--list]      at the top of the repository, once, after the kit's port.py

A name is the repository's own where a signature, a record field, a `data`, a `record` or a `let` of crates/*/specs or
crates/*/proofs binds it. The names of goals, and of what Rattle makes of the code (`loop-i-preserved`,
`returns-in-Ok`, `in-Some`), are Rattle's: they keep their dashes, and so does a name that ends in a number.
"""
import os
import re
import sys

MADE = re.compile(
    r"^(returns|loop|invariant|decreases|overflow|index|ghost|in|if|impl|requires|ensures|unreachable|call)(-|$)"
    r"|-(requires|init|preserved|index)(-\d+)?$|-\d+$"
)
LETTER = r"[\w'·≢≡≤-]"
# names of a made shape that are the repository's own all the same
OWN = {"in-range", "in-phase", "in-band", "in-draft", "in-first", "in-second", "in-front", "in-front-few", "in-the-way", "in-self", "in-other"}


def texts(root):
    for folder, dirs, files in os.walk(os.path.join(root, "crates")):
        dirs[:] = sorted(d for d in dirs if d != "out")
        for f in sorted(files):
            if f.endswith((".antt", ".rt", ".edit")):
                yield os.path.join(folder, f)


def bound(text):
    """The names with a dash that a text binds."""
    for line in text.split("\n"):
        m = re.match(r"\s*(?:abbrev |pub |unfoldable )*((?:[^\s(){}:,;.=]+ )+):(?!=)", line)
        names = m.group(1).split() if m else []
        m = re.match(r"\s*(?:pub )?(?:data|record) ([^\s(){}:,;.]+)", line)
        names += [m.group(1)] if m else []
        names += re.findall(r"\blet ([^\s(){}:,;.=]+)", line)
        for m in re.finditer(r"[({]((?:[^\s(){}:,;.=]+ )+):", line):
            names += m.group(1).split()
        for m in re.finditer(r"λ ([^.=]*?)\. ", line):
            names += re.findall(LETTER + "+", m.group(1))
        yield from (n for n in names if "-" in n and not n.startswith("-"))


def goals(text):
    """The names that a proof file gives to goals."""
    return set(re.findall(r"goal\.([\w'-]+)", text))


def main():
    names, made = set(), set()
    for path in texts("."):
        if not path.endswith(".antt"):
            continue
        with open(path, encoding="utf-8") as f:
            text = f.read()
        here = goals(text)
        made |= here
        names |= {n for n in bound(text) if n not in here and (n in OWN or not MADE.search(n))}
    names -= made
    if "--list" in sys.argv:
        print("\n".join(sorted(names)))
        return 0
    word = re.compile(r"(?<![\w'-])(" + "|".join(re.escape(n) for n in sorted(names, key=len, reverse=True)) + r")(?![\w'-])")
    for path in texts("."):
        with open(path, encoding="utf-8") as f:
            text = f.read()
        new = word.sub(lambda m: m.group(1).replace("-", "_"), text)
        if new != text:
            with open(path, "w", encoding="utf-8") as f:
                f.write(new)
    return 0


if __name__ == "__main__":
    raise SystemExit(main())
