#!/usr/bin/env python3
"""Lists the definitions that contracts of public functions cite, each with the line of comment above it.

    docs/definitions.py            prints the list
    docs/definitions.py --write    puts it into docs/DEFINITIONS.md, behind its last heading

A definition is cited where a clause of a public function names what its file imports of a crate's specs."""

import glob
import os
import re
import sys

TOP = os.path.dirname(os.path.dirname(os.path.abspath(__file__)))
PAGE = os.path.join(TOP, "docs", "DEFINITIONS.md")
HEADING = "## All that contracts cite\n"
IMPORT = re.compile(r"ghost use Rattle\.(\w+)\.specs\.(\w+)(?:\.\{([^}]*)\}| as (\w+))")
CLAUSE = ("ensures", "requires", "ghost")


def read(path):
    with open(path, encoding="utf-8") as file:
        return file.read()


def public_clauses(text):
    """The heads of the public functions and the ghost members of traits and impls."""
    heads, inside = [], False
    for line in text.splitlines():
        bare = line.strip()
        inside = inside or re.match(r"pub (const )?fn|ghost \w+:|pub trait", bare) is not None
        if inside:
            heads.append(line)
            is_body = bare == "{" or bare.endswith("{") and not bare.startswith(CLAUSE)
            inside = not is_body and bare != "" and not (bare.startswith("ghost") and bare.endswith("}"))
    return "\n".join(heads)


def cited(path):
    """The definitions that the public clauses of a source file name: crate, file and name."""
    text = read(path)
    clauses = public_clauses(text)
    words = set(re.findall(r"[^\s(){}\[\],;`]+", clauses))
    for crate, file, names, whole in IMPORT.findall(text):
        for name in filter(None, (name.strip() for name in names.replace("\n", " ").split(","))):
            name, _, alias = name.partition(" as ")
            if (alias or name) in words:
                yield crate, file, name
        if whole:
            yield from ((crate, file, word[len(whole) + 1 :]) for word in words if word.startswith(f"{whole}."))


def comments(path):
    """The definitions of a file in their order, with the line of comment above each."""
    lines = read(path).splitlines()
    for at, line in enumerate(lines):
        found = re.match(r"(?:unfoldable |abbrev |infix\w* .*)?pub (?:record )?(\S+)", line) if not line.startswith("pub use") else None
        if found and found[1] != "mod":
            above = at - 1
            while above >= 0 and lines[above].startswith("infix"):
                above -= 1
            while above > 0 and lines[above].startswith("-- ") and lines[above - 1].startswith("-- ") and not lines[above - 1].startswith("-- --"):
                above -= 1
            yield found[1], " ".join(it[3:] for it in lines[above:at] if it.startswith("-- "))


def table():
    found = {it for path in glob.glob(f"{TOP}/crates/*/src/**/*.rt", recursive=True) for it in cited(path)}
    out = ["\n| in | definition | says |\n|---|---|---|"]
    with open(f"{TOP}/crates.txt", encoding="utf-8") as file:
        crates = [line.split(":")[0].split()[0] for line in file if ":" in line]
    for crate in crates:
        for path in sorted(glob.glob(f"{TOP}/crates/{crate}/specs/*.antt")):
            name = os.path.basename(path)[:-5]
            rows = [(it, text.replace("|", "\\|")) for it, text in comments(path) if (crate, name, it) in found]
            out += [f"| {f'`{crate}/{name}`' if at == 0 else ''} | `{it}` | {text} |" for at, (it, text) in enumerate(rows)]
    return "\n".join(out) + "\n"


def main():
    if "--write" not in sys.argv:
        sys.stdout.write(table())
        return
    text = read(PAGE)
    with open(PAGE, "w", encoding="utf-8") as file:
        file.write(text[: text.index(HEADING) + len(HEADING)] + table())


if __name__ == "__main__":
    main()
