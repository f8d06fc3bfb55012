#!/usr/bin/env python3
"""Spells the repository's own definitions and lemmas as today's Rattle does: words in snake case, types and modules in camel case.

usage: respell.py [--check] [FOLDER]     FOLDER has crates/ (default: the current folder)

It reads which names the files of specs/ and proofs/ declare, and rewrites them in every .rt, .antt and .edit file below crates/ and in the pages.
A hump becomes an underscore, and so does a dash, but one between the names of two functions stays. A name that would meet another gets an ending.
It is run once, after the kit's port.py. --check prints the table and writes nothing.
"""

import collections
import glob
import os
import re
import sys

DECLARED = re.compile(r"(?m)^( *)(?:\| *)?((?:abbrev |unfoldable |pub |data |record )*)([^\s(){}.;,@\"«»|:]+)((?: \{[^{}\n]*\}| \([^()\n]*\))*) : ")
TOKEN = re.compile(r"[^\s(){}.;,@\"«»\[\]\\|`]+")
LIBRARIES = re.compile(r"(?m)^(?:ghost )?use (?!Rattle\.(?!std\b|core\b))\S+?\.\{([^}]*)\}")
LIBRARY = {"length", "take", "drop", "set", "map", "append", "get_or", "sum", "reverse", "filter"}
PAGES = ["README.md", "docs/DECISIONS.md", "docs/LANDINGS.md", "docs/TRUST.md"]
# Names of tactics and other words of antt's own.
RESERVED = {"first_of", "search", "grind", "simp", "omega", "assumption", "ground", "hlevel"}
# Names that would be such a word, or one of std that stands in the same file.
OTHER = {"firstOf": "first_one_of", "first-of": "first_one_of_lem", "bit-and": "bit_and_lem", "bit-or": "bit_or_lem"}


def function_folders(crate):
    """The folders of proofs/ that belong to a function, which have no declarations of the crate's own."""
    return {os.path.dirname(p) for p in glob.glob(crate + "/proofs/**/*.antt", recursive=True) if os.path.basename(p) in ("Proof.antt", "Answers.antt", "Invariants.antt")}


def declarations(root):
    names, inner, upper = collections.defaultdict(set), set(), set()
    for crate in sorted(glob.glob(root + "/crates/*")):
        apart = function_folders(crate)
        for p in sorted(glob.glob(crate + "/specs/**/*.antt", recursive=True) + glob.glob(crate + "/proofs/**/*.antt", recursive=True)):
            if os.path.dirname(p) in apart:
                continue
            with open(p, encoding="utf-8") as f:
                for m in DECLARED.finditer(f.read()):
                    names[m[3]].add(p)
                    if m[1]:
                        inner.add(m[3])
    return names, inner


def humps(name):
    return re.sub(r"(?<=[a-z0-9])[A-Z]", lambda m: "_" + m[0].lower(), name)


def table(root):
    names, inner = declarations(root)
    plain = {humps(n) for n in names if "-" not in n and n not in inner} | LIBRARY
    new = {}
    for n in sorted(names):
        if not re.match(r"[a-zμκ]", n) or not re.search(r"[a-z0-9][A-Z]|-", n):
            continue
        parts = [humps(p) for p in n.split("-")]
        to = parts[0]
        for before, part in zip(parts, parts[1:]):
            joined = n not in inner and before in plain and part in plain or not re.match(r"\w+$", part) or not re.match(r"\w+$", before) or part[:1].isupper()
            to += ("-" if joined else "_") + part
        if to != n:
            new[n] = to
    for n in OTHER.keys() & names.keys():
        new[n] = OTHER[n]
    # Where a function and a lemma or a field come to one name, the latter gets an ending.
    functions = {new[n] for n in new if re.search(r"[a-z0-9][A-Z]", n)}
    met = collections.Counter(new.get(n, n) for n in names)
    kept = []
    for n in sorted(names):
        to = new.get(n, n)
        if re.search(r"[a-z0-9][A-Z]", n):
            continue
        if to in functions or to != n and met[to] > 1:
            ending = "_is" if n in inner else "_lem"
            kept.append((n, to + (ending if not met[to + ending] else "_here")))
    for n, to in kept:
        new[n] = to
    met = collections.Counter(new.values())
    for n in sorted(new):
        if met[new[n]] > 1 or new[n] in names.keys() - new.keys() or new[n] in RESERVED:
            raise SystemExit(f"respell: {n} would meet another as {new[n]}")
    return new, kept


def texts(root):
    for p in sorted(glob.glob(root + "/crates/*/**/*", recursive=True)):
        if p.endswith((".rt", ".antt", ".edit")) and "/out/" not in p and os.path.isfile(p):
            yield p
    for p in PAGES:
        if os.path.isfile(os.path.join(root, p)):
            yield os.path.join(root, p)


def main(argv):
    check = "--check" in argv
    rest = [a for a in argv if a != "--check"]
    root = rest[0] if rest else "."
    new, kept = table(root)
    if check:
        for n in sorted(new):
            print(n, new[n])
    for n, other in kept:
        print("met:", n, "->", other)
    changed = 0
    for p in texts(root):
        with open(p, encoding="utf-8") as f:
            text = f.read()
        # A name that the file imports from a library is the library's.
        theirs = {n.strip().split(" as ")[0] for m in LIBRARIES.finditer(text) for n in m[1].split(",")}
        out = TOKEN.sub(lambda m: new.get(m[0], m[0]) if m[0] not in theirs else m[0], text)
        if out != text:
            changed += 1
            if not check:
                with open(p, "w", encoding="utf-8") as f:
                    f.write(out)
    print(f"respell: {len(new)} names, {changed} files, {len(kept)} names with an ending")
    return 0


if __name__ == "__main__":
    raise SystemExit(main(sys.argv[1:]))
