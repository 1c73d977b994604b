"""The reading list of docs/CLAIMS.md beside the sources: which modules of specs/ what is claimed rests on.

A contract rests on the modules from which it cites a name, and a module on those that it imports; where that is one of
proofs/, it is listed too, and not what it imports. The list has three parts:
  the table       what the calls and the programs rest on (the contracts of `host`, `row` and of every program), and the
                  modules that state theorems;
  Beneath ..      what other public contracts and the theorems rest on besides;
  No public ..    the rest.
Usage: reading.py, from the top folder.
"""
import re
import sys
from pathlib import Path

CRATES = Path("crates")
FACES = {"host", "host_c", "row"}
# modules that state theorems, or are words of such statements alone: by their name in any crate, or in one
THEOREMS = {"Claims", "Numbers", "Examples", "Orders"}
THEOREMS |= {f"calls/specs/{name}" for name in ("Good", "Results", "Steps", "Refusals")}
THEOREMS |= {f"demands/specs/{name}" for name in ("Demands", "Face", "Terms", "Hosts")}
THEOREMS |= {"octets/specs/First", "octets/specs/One", "line/specs/Line", "worked/specs/Worked"}
THEOREMS |= {"firmware/specs/Firmware", "firmware/specs/Promises"}
PARTS = ["|", "Beneath the calls", "No public contract"]

MODULE = r"Rattle\.(\w+)\.(specs|proofs)\.([A-Z]\w*)"
IMPORT = re.compile(r"^(?:ghost |pub )*use " + MODULE + r"(?:\.\{([^}]*)\}| as ([^\s;]+))?", re.M)
FUNCTION = re.compile(r'^\s*(pub )?(?:pub\(\w+\) )?(?:extern "C" )?fn (\w+)', re.M)
# a word of a contract; a field's has a dot before it
WORD = re.compile(r"[^\s()\[\]{},]+")


def imports(text):
    """Each module of the repository that a text imports, with the words by which it can be cited there."""
    for crate, folder, module, names, alias in IMPORT.findall(text):
        if not (CRATES / crate).is_dir():
            continue  # the toolchain's
        words = [name.split(" as ")[-1].strip() for name in names.split(",") if name.strip()]
        yield f"{crate}/{folder}/{module}", words or [(alias or module) + "."]


def contract(text, at):
    """The clauses between a function's head, which starts at `at`, and its body."""
    clauses = []
    while True:
        clause = re.compile(r"\b(ensures|requires)\*?(?:\s+\w+)?\s*\{|\{").search(text, at)
        if clause is None or clause[1] is None:
            return " ".join(clauses)
        at, depth = clause.end(), 1
        while depth:
            depth += {"{": 1, "}": -1}.get(text[at], 0)
            at += 1
        clauses.append(text[clause.end() : at - 1])


def cited(words, clauses):
    """Whether clauses cite one of the words: a name, with a field behind it or not, an operator's parts, or what stands behind
    `alias.`."""
    said = set(WORD.findall(clauses))
    return any(
        any(word.startswith(name) for word in said)
        if name.endswith(".")
        else all(any(word.split(".")[0] == part for word in said) for part in name.split("◌") if part)
        for name in words
    )


def public(crate):
    """The functions of a crate that count, with their file's text: of a program all, of a library the public ones."""
    source = crate / "src"
    program = (source / "main.rt").exists()
    root = "" if program else (source / "lib.rt").read_text()
    handed_on = {
        (file, name.strip())
        for file, names in re.findall(r"^pub use (?:\w+::)*?(\w+)::(\w+|\{[^}]*\});", root, re.M)
        for name in names.strip("{}").split(",")
    }
    open_files = {"lib"} | set(re.findall(r"^pub mod (\w+);", root, re.M))
    for file in sorted(source.glob("*.rt")):
        text = re.sub(r"//.*", "", file.read_text())
        for function in FUNCTION.finditer(text):
            if program or function[1] and (file.stem in open_files or (file.stem, function[2]) in handed_on):
                yield function[2], text, function.end()


def roots():
    """What contracts cite, the calls' and the programs' apart: each module with one of those that cite it."""
    faces, others = {}, {}
    for crate in sorted(path for path in CRATES.iterdir() if (path / "src").is_dir()):
        face = crate.name in FACES or (crate / "src/main.rt").exists()
        for name, text, at in public(crate):
            clauses = contract(text, at)
            for module, words in imports(text):
                if cited(words, clauses):
                    (faces if face else others).setdefault(module, f"the contract of {crate.name}::{name}")
    return faces, others


def reached(start):
    """The modules given and all that they import, each with what reaches it."""
    found, todo = {}, list(start.items())
    while todo:
        module, cause = todo.pop()
        if module not in found:
            found[module] = cause
            if "/specs/" in module:
                todo += [(below, module) for below, _ in imports((CRATES / f"{module}.antt").read_text())]
    return found


def listed(modules):
    """The three parts of the list in docs/CLAIMS.md, each a set of modules, and its tokens that name none."""
    text = Path("docs/CLAIMS.md").read_text()
    section = text.split("\n## How to read specs/\n")[1].split("\n## ")[0]
    parts, unknown = [set() for _ in PARTS], []
    for block in section.split("\n\n"):
        for place, start in enumerate(PARTS):
            if not block.startswith(start):
                continue
            # of the table the first column alone
            lines = [line.split("|")[1] for line in block.splitlines()] if start == "|" else [block]
            folder = ""
            for token in re.findall(r"`([^`]+)`", "\n".join(lines)):
                if not re.fullmatch(r"([a-z*]+/(specs|proofs)(/[A-Z]\w*)?|[A-Z]\w*)", token):
                    continue
                if "/" in token:
                    folder = "/".join(token.split("/")[:2])
                else:
                    token = f"{folder}/{token}"
                pattern = token if token.count("/") == 2 else f"{token}/*"
                named = {module for module in modules if re.fullmatch(pattern.replace("*", r"\w+"), module)}
                parts[place] |= named
                unknown += [] if named else [token]
    return parts, unknown


def main():
    files = [*CRATES.glob("*/specs/*.antt"), *CRATES.glob("*/proofs/*.antt")]
    modules = {str(file.relative_to(CRATES).with_suffix("")) for file in files if file.stem != "Lib"}
    specs = {module for module in modules if "/specs/" in module}
    theorems = {module: "it states theorems" for module in specs if {module, module.split("/")[2]} & THEOREMS}
    faces, others = roots()
    table = reached(faces) | theorems
    beneath = reached(others | theorems)
    expected = [table, {m: c for m, c in beneath.items() if m not in table}]
    expected.append({m: "no public contract reaches it" for m in specs - set(expected[0]) - set(expected[1])})

    parts, unknown = listed(modules)
    faults = [f"{token}: there is no such module" for token in unknown]
    for start, have, want in zip(("the table", *PARTS[1:]), parts, expected):
        faults += [f"{module} is missing from '{start}': {want[module]}" for module in sorted(set(want) - have)]
        faults += [f"{module} does not belong in '{start}'" for module in sorted(have - set(want))]
    for fault in faults:
        print(f"docs/CLAIMS.md: {fault}")
    sys.exit(bool(faults))


main()
