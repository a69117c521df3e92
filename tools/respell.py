#!/usr/bin/env python3
"""Respells the definitions, fields and lemmas of specs/ and proofs/ in snake case, and types in camel case.

usage: python3 tools/respell.py        at the top of the repository, once, after the toolchain's own script

Names that the toolchain makes (of goals, steps and invariants), names of its library, functions of src/, strings and comments
stay as they are. What would fall together with another name is printed and left.
"""

import os
import re
import sys

# A word of the proofs' language: it may hold hyphens.
WORD = re.compile(r"[^\s(){}\[\],;.«»\"λ⌜⌝]+")
DECLARED = re.compile(r"^\s*(?:(?:abbrev|unfoldable|pub|data|record) )*([^\s(){}\[\],;.«»\"λ⌜⌝:]+)\s+(?::|\{|\()")
USE = re.compile(r"\buse ([\w.·◌]+)\.\{([^}]*)\}")
# What the toolchain names: goals, and what a function's proof is given.
MADE = re.compile(
    r"^(returns|loop|decreases|invariant|overflow|slice-bounds|unreachable|ensures|push-reserved)-|-requires(-in-\w+)?$"
)


def files(root):
    for folder, dirs, names in os.walk(os.path.join(root, "crates")):
        dirs[:] = sorted(d for d in dirs if d != "out")
        for name in sorted(names):
            if name.endswith((".antt", ".rt")):
                yield os.path.join(folder, name)


def respelled(name):
    parts = name.split("-")
    if name[0].isupper():
        return parts[0] + "".join(p[:1].upper() + p[1:] for p in parts[1:])
    return "_".join(parts)


def without_aside(line, mark):
    """The line's code, and the comment behind it."""
    at = line.find(mark)
    return (line, "") if at < 0 else (line[:at], line[at:])


def declared(root):
    """The repository's own names with hyphens, and which of them are fields of a record."""
    names, fields = set(), set()
    for path in files(root):
        if not path.endswith(".antt"):
            continue
        record = None
        for line in open(path, encoding="utf-8"):
            code, _ = without_aside(line, "--")
            depth = len(code) - len(code.lstrip())
            if record is not None and code.strip() and depth <= record:
                record = None
            it = DECLARED.match(code)
            if it and "-" in it.group(1) and not MADE.search(it.group(1)):
                names.add(it.group(1))
                if record is not None:
                    fields.add(it.group(1))
            if re.match(r"\s*(pub )?record ", code):
                record = depth
    return names, fields


def main(root):
    own = set(os.listdir(os.path.join(root, "crates")))
    names, fields = declared(root)
    texts = {path: open(path, encoding="utf-8").read() for path in files(root)}
    clash = 0
    for path, text in texts.items():
        theirs = set()
        for module, listed in USE.findall(text):
            crate = re.sub(r"^Rattle[.·]", "", module).split(".")[0].split("·")[0]
            if crate not in own:
                theirs.update(w.strip() for w in listed.split(","))
        words = set(WORD.findall(text))
        mark = "--" if path.endswith(".antt") else "//"
        out, said = [], set()
        for line in text.splitlines(keepends=True):
            code, aside = without_aside(line, mark)

            def turn(it):
                word = it.group(0)
                if "-" not in word or word not in names or word in theirs:
                    return word
                behind_dot = it.start() > 0 and code[it.start() - 1] == "."
                used = code.lstrip().startswith(("use ", "ghost use "))
                if behind_dot and word not in fields and not used:
                    return word
                if code[: it.start()].count('"') % 2:
                    return word
                new = respelled(word)
                if new in words and word not in said:
                    said.add(word)
                    print(f"{path}: {word} and {new}")
                return new

            out.append(WORD.sub(turn, code) + aside)
        clash += len(said)
        new = "".join(out)
        if new != text:
            with open(path, "w", encoding="utf-8") as f:
                f.write(new)
    print(f"{len(names)} names respelled; {clash} places where one falls together with another")


if __name__ == "__main__":
    main(sys.argv[1] if len(sys.argv) > 1 else ".")
