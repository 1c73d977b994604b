#!/usr/bin/env python3
"""Brings the repository's own definitions and lemmas to today's spelling: words in snake case, types in upper camel case.

usage: tools/respell.py [--check]

Run once, behind the toolchain's port.py. A name with a dash that a file of specs/ or proofs/ declares is spelled anew wherever
it stands in a crate: in definitions, proofs, contracts and must-fail edits. Comments and quoted texts stay. A name that a file
takes from a library keeps its spelling there. In README and docs/ the names between backquotes follow. Names that would fall together are told, and nothing is written."""
import glob
import os
import re
import sys

os.chdir(os.path.join(os.path.dirname(os.path.abspath(__file__)), ".."))
WORD = r"[^\s(){}\[\];,.\"λ]+"
DECLARED = re.compile(
    r"^[ \t]*((?:pub |abbrev |unfoldable |data |record )*)([^\s(){}\[\];,.]+(?: [^\s(){}\[\];,.]+)*?)\s*"
    r"(?:\{[^}]*\}\s*|\([^)]*\)\s*)*:(?!\S)", re.M)
BOUND = re.compile(r"(?:\bas |\blet |λ |\()((?:[\w'μ]+(?:-[\w']+)*)(?: [\w'μ]+(?:-[\w']+)*)*)(?= ?[:.;,})\n]| :)")
KEPT = {"PC-1": "PC_1", "PC-2": "PC_2"}  # FIPS 46's own names
LIBRARY = re.compile(r"\buse (?!Rattle\.(?!std\b))[\w.·]+\.\{([^}]*)\}", re.S)


def plain(text):
    """The text without comments and quoted texts, everything else at its place."""
    return re.sub(r'"(?:\\.|[^"\\\n])*"|--(?=\s|-).*|//.*', lambda m: re.sub(r"[^\n]", " ", m[0]), text)


def new(name):
    if name in KEPT:
        return KEPT[name]
    if name[0].isupper():
        return "".join(p[:1].upper() + p[1:] for p in name.split("-"))
    return name.replace("-", "_")


def main():
    paths = sorted(p for p in glob.glob("crates/*/specs/**/*.antt", recursive=True) +
                   glob.glob("crates/*/proofs/*.antt"))
    own, places, bound = set(), {}, set()
    for path in paths:
        for m in DECLARED.finditer(plain(open(path).read())):
            for name in m[2].split():
                bare = name.strip("◌")
                if "-" in bare.strip("-") and not re.search(r"[→≡◌×∷+*]", bare):
                    own.add(bare)
                places.setdefault((path, name), 0)
                places[path, name] += 1
        for m in BOUND.finditer(plain(open(path).read())):
            bound.update(name for name in m[1].split() if "-" in name)
    for path in paths:  # what a library gives is not ours
        for m in LIBRARY.finditer(plain(open(path).read())):
            bound -= {w.split(" as ")[0].strip() for w in m[1].split(",")}
    own |= bound
    names = {}
    for name in sorted(own):
        names.setdefault(new(name), []).append(name)
    wrong = [f"{fresh}: {' '.join(olds)}" for fresh, olds in names.items() if len(olds) > 1]
    for (path, name) in sorted(places):
        if name in own and (path, new(name)) in places:
            wrong.append(f"{path}: {name} falls together with {new(name)}")
    print(*wrong, sep="\n")
    word = re.compile(r"(?<![^\s(){}\[\];,.\"λ◌])(" + "|".join(sorted(map(re.escape, own), key=len, reverse=True))
                      + r")(?=[\s(){}\[\];,.◌]|$)")
    changed = 0
    for path in sorted(glob.glob("crates/**/*.antt", recursive=True) + glob.glob("crates/**/*.rt", recursive=True)
                       + glob.glob("crates/*/must-fail/*.edit")):
        if "/out/" in path:
            continue
        text = open(path).read()
        quiet = plain(text) if not path.endswith(".edit") else text
        taken = {w.split(" as ")[0].strip() for m in LIBRARY.finditer(quiet) for w in m[1].split(",")}
        out, at = [], 0
        for m in word.finditer(quiet):
            if m[1] in taken:
                continue
            out += [text[at:m.start(1)], new(m[1])]
            at = m.end(1)
        turned = "".join(out) + text[at:]
        if turned != text:
            changed += 1
            if "--check" not in sys.argv:
                open(path, "w").write(turned)
    for path in ["README.md"] + sorted(glob.glob("docs/*.md")):
        text = open(path).read()
        turned = re.sub(r"`[^`\n]+`", lambda q: word.sub(lambda m: new(m[1]), q[0][1:-1]).join("``"), text)
        if turned != text:
            changed += 1
            if "--check" not in sys.argv:
                open(path, "w").write(turned)
    print(f"{len(own)} names, {changed} files")


main()
