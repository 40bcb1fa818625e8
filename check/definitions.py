#!/usr/bin/env python3
"""Makes the tables of docs/DEFINITIONS.md: of the constants that clauses and definitions cite, and of each module of
specs/ with the sentence at its head. Prints them; with `--write` it puts them into the page, between its marks.
`check/readmes.py` compares them."""

import glob
import os
import re
import sys

TOP = os.path.dirname(os.path.dirname(os.path.abspath(__file__)))
PAGE = os.path.join(TOP, "docs", "DEFINITIONS.md")
CITED = re.compile(r"^\s*(?:ghost )?use Rattle\.(\w+)\.specs\.declared\.([\w.]+)\.TheConstants\.\{(.*)\};?$", re.M)
CONSTANT = r"\bconst {}: \w+ = ([^;]+);"


def crates():
    """The crates, lowest first."""
    with open(os.path.join(TOP, "crates.txt"), encoding="utf-8") as lines:
        for line in lines:
            if ":" in line and not line.startswith("#"):
                yield line.split(":")[0].split()[0]


def modules(crate):
    """The modules of a crate, but for the one that lists them."""
    specs = os.path.join(TOP, "crates", crate, "specs")
    for folder, folders, names in os.walk(specs):
        folders.sort()
        for name in sorted(names):
            module = os.path.relpath(os.path.join(folder, name), specs).removesuffix(".antt")
            if name.endswith(".antt") and module != "Lib":
                yield module, os.path.join(folder, name)


def head(path):
    """The sentence at the head of a module, which may go over several lines."""
    said = ""
    with open(path, encoding="utf-8") as lines:
        for line in lines:
            if not line.startswith("--"):
                break
            said = f"{said} {line[2:].strip()}".strip()
            if said.endswith("."):
                break
    return said.replace("|", "\\|")


def tables():
    """A table for each crate that has definitions."""
    out = []
    for crate in crates():
        rows = [f"| `{module}` | {head(path)} |" for module, path in modules(crate)]
        if rows:
            out += [f"## {crate}", "", "| Module | Says |", "|---|---|", *rows, ""]
    return "\n".join(out)


def read(path):
    with open(path, encoding="utf-8") as text:
        return text.read()


def cited(crate):
    """The constants that the clauses and definitions of a crate cite, each with its crate and module."""
    for part, ending in (("specs", "antt"), ("src", "rt")):
        for path in glob.glob(os.path.join(TOP, "crates", crate, part, "**", f"*.{ending}"), recursive=True):
            for owner, module, names in CITED.findall(read(path)):
                for name in names.split(", "):
                    yield owner, module, name.split(" as ")[0]


def value(path, name):
    """A constant and its value, but for those that are arrays."""
    found = re.search(CONSTANT.format(name), read(path))
    if found is None:
        return f"`{name}`"
    number = found[1].replace("_", "")
    return f"`{name}` {int(number):,}" if number.isdecimal() else f"`{name}` `{found[1]}`"


def constants():
    """A table of the constants, by the file that has them; `crates()` are the lowest first."""
    every = {it for crate in crates() if not crate.startswith("test_") for it in cited(crate)}
    rows = []
    for crate in crates():
        for module in sorted({it[1] for it in every if it[0] == crate}):
            file = f"{crate}/src/{module.replace('.', '/')}.rt"
            names = sorted(it[2] for it in every if it[:2] == (crate, module))
            rows.append(f"| `{file}` | {', '.join(value(os.path.join(TOP, 'crates', file), it) for it in names)} |")
    return "\n".join(["| File | Constants |", "|---|---|", *rows, ""])


def page_now():
    """The page, and the same with the tables of now between its marks."""
    was = now = read(PAGE)
    for mark, text in ("constants", constants()), ("modules", tables()):
        begin, end = f"<!-- {mark} -->\n", f"<!-- end of {mark} -->\n"
        pattern = re.compile(re.escape(begin) + ".*?" + re.escape(end), re.S)
        if not pattern.search(was):
            sys.exit(f"docs/DEFINITIONS.md has no marks for its {mark}")
        now = pattern.sub(lambda _, put=begin + text + end: put, now)
    return was, now


def main():
    if sys.argv[1:] not in ([], ["--write"]):
        print(__doc__, file=sys.stderr)
        return 2
    if sys.argv[1:] == ["--write"]:
        was, wanted = page_now()
        if was != wanted:
            with open(PAGE, "w", encoding="utf-8") as page:
                page.write(wanted)
        return 0
    print(f"{constants()}\n{tables()}", end="")
    return 0


if __name__ == "__main__":
    sys.exit(main())
