"""Every public function of every library crate beside the statements that its contract allows one outcome; and that none
has a `requires`.

A function counts that code outside its crate can call: `pub fn`, `pub extern "C" fn` and a public method, in src/lib.rt, in
an open module, or handed on by `pub use`; and `default` of a type that derives or writes Default. A program has none: nothing
can call into it.
Its statement stands in proofs/Determined.antt of its crate, under its name, its module before it where two have one name, and
of `default` under any. It
is one of three (FORMS), of its own contract: the second of a function that hands out a part of what it was lent, whose
contents alone are compared.
Usage: count.py, from the top folder.
"""
import re
import sys
from pathlib import Path

CRATES = Path("crates")
# each form, and whether it is that of a function that hands out a part
FORMS = {
    "OneOutcome contract.{0}.ended fn.{0}.Reads.Post": False,
    "OneSeen contract.{0}.ended (λ κs. (λ x. x.now)) fn.{0}.Reads.Post": True,
    "OneWritten contract.{0}.ended (λ M. contract.{0}.clauses)": False,
}
# what the two words of a form stand for in a crate's file
MODULES = {"fn": "Rattle.{}.proofs", "contract": "Rattle.{}.specs.contracts"}
# the types that have a default
DEFAULT = re.compile(r"#\[derive\([^)]*\bDefault\b[^)]*\)\]\s*pub (?:struct|enum) (\w+)|^impl Default for (\w+)", re.M)
WORD = re.compile(r"//[^\n]*|b'(?:\\[^']+|[^'\\])'|b?\"(?:\\.|[^\"\\])*\"|->|::|\w+|[^\s\w]")
BEFORE_FN = {"extern", '"C"', "const"}


def behind(words, at, left, right):
    """The place behind the bracket that is shut again, of the one that is opened at a place."""
    depth = 0
    while True:
        depth += {left: 1, right: -1}.get(words[at], 0)
        at += 1
        if depth == 0:
            return at


def items(file):
    """A file's public items: the type whose method it is or None, `fn`, `mod` or `use`, and the words behind that."""
    words = [word for word in WORD.findall(file.read_text()) if not word.startswith("//")]
    at, of_type = 0, None
    while at < len(words):
        word = words[at]
        if word == "impl":
            at = behind(words, at + 1, "<", ">") if words[at + 1] == "<" else at + 1
            of_type = words[at]
            at = words.index("{", at) + 1
        elif word == "mod" and words[at + 2] == "{":
            sys.exit(f"{file}: a module without a file is not understood")
        elif word == "{":
            at = behind(words, at, "{", "}")
        elif word == "}":
            at, of_type = at + 1, None
        else:
            at += 1
            if word == "pub" and words[at] != "(":
                while words[at] in BEFORE_FN:
                    at += 1
                if words[at] in ("fn", "mod", "use"):
                    yield of_type, words[at], words[at + 1 :]


def contract(words):
    """Of a function, from the words behind its name: whether it hands out a part, and whether it asks something."""
    at = behind(words, words.index("("), "(", ")")
    part, asks = words[at : at + 2] == ["->", "&"], False
    while words[at] != "{":
        asks = asks or words[at] == "requires"
        # a clause may have a name before its bracket
        at = behind(words, words.index("{", at), "{", "}") if words[at] in ("ensures", "requires") else at + 1
    return part, asks


def handed_on(words):
    """What `pub use` hands on: a module's name, and the names in it."""
    path = " ".join(words[: words.index(";")])
    module, _, names = path.rpartition(" :: ")
    return module.split(" :: ")[-1], [name.split()[0] for name in names.strip("{} ").split(",") if name.strip()]


def functions(crate):
    """A library crate's public functions: the path of each in the proofs, and what `contract` says of it."""
    files = {file.stem: list(items(file)) for file in (crate / "src").glob("*.rt")}
    found, seen, todo = {}, set(), [("lib", "*")]
    while todo:
        file, only = todo.pop()
        if (file, only) in seen:
            continue
        seen.add((file, only))
        for of_type, kind, words in files[file]:
            if kind == "fn" and only in ("*", words[0], of_type):
                path = [file] * (file != "lib") + [of_type] * (of_type is not None) + [words[0]]
                found[".".join(path)] = contract(words[1:])
            elif kind == "mod" and only == "*":
                todo.append((words[0], "*"))
            elif kind == "use" and only == "*":
                module, names = handed_on(words)
                todo += [(module, name) for name in names if module in files]
    for file in (crate / "src").glob("*.rt"):
        for derived, written in DEFAULT.findall(file.read_text()):
            found[f"{derived or written}Default.default"] = (False, False)
    return found


def statements(crate):
    """What proofs/Determined.antt of a crate states, each name with its type; and what it imports, line by line."""
    file = crate / "proofs/Determined.antt"
    text = file.read_text() if file.exists() else ""
    stated = re.findall(r"^pub (\S+) :((?:.|\n)*?)\n(?:unfolding .*\n)?(?=\1 )", text, re.M)
    return {name: " ".join(kind.split()) for name, kind in stated}, re.findall(r"^use (.*)", text, re.M)


def imported(lines, module, name):
    """Whether a name is imported from a module."""
    return any(line.startswith(module + ".{") and name in re.split(r"[{}, ]+", line) for line in lines)


def faults(crate, wanted):
    """What is wrong with a crate's statements, of the public functions that it has."""
    stated, lines = statements(crate)
    for word, module in MODULES.items():
        own = [f"{module.format(crate.name)} as {word}"]
        used = any(re.search(rf"\b{word}\.", kind) for kind in stated.values())
        if used and [line for line in lines if line.endswith(f" as {word}")] != own:
            yield f"{crate.name}: {word} is not {own[0]}"
    for path, (part, asks) in sorted(wanted.items()):
        function = f"{crate.name}::{path.replace('.', '::')}"
        if asks:
            yield f"{function}: it has a requires"
        forms = [form.format(path) for form, of_a_part in FORMS.items() if of_a_part == part]
        names = [path.rpartition(".")[2], path.replace(".", "_")]
        if names[0] == "default":
            names += [name for name, kind in stated.items() if kind in forms]
        names = [name for name in names if stated.get(name) in forms] or names
        kind = stated.pop(names[0], None)
        if kind is None:
            yield f"{function}: no statement in {crate}/proofs/Determined.antt"
        elif kind not in forms:
            yield f"{function}: its statement is\n    {kind}\n  and not\n    " + "\n  or\n    ".join(forms)
        elif not imported(lines, "Rattle.octets.specs.One", kind.split()[0]):
            yield f"{function}: {kind.split()[0]} is not that of octets/specs/One"
    for name in sorted(stated):
        yield f"{crate.name}: {name} is stated, and no public function is named so"


def main():
    found, count = [], 0
    for crate in sorted(path for path in CRATES.iterdir() if (path / "src").is_dir()):
        wanted = functions(crate) if (crate / "src/lib.rt").exists() else {}
        count += len(wanted)
        found += faults(crate, wanted)
    print(*found, f"{count} public functions, faults: {len(found)}", sep="\n")
    sys.exit(bool(found))


main()
