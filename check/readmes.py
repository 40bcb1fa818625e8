#!/usr/bin/env python3
"""Looks whether the README of each library crate shows its uses as they stand in `crates/test_examples`, where
they are proved and run: everything from the first `use` of a file on; whether docs/DEFINITIONS.md has the
tables of `check/definitions.py`; and whether docs/PROOFS.md counts definitions as `check/trusted.py` does.
With `--write` it puts all of these there. Then looks whether README.md names the toolchain as `rt version`
does, the command that runs the program and the one that tests it, whether each link of a page leads to a file
and a heading that are there, and whether what a page cites of the code is there (`check/cited.py`); and whether
docs/PROTOCOL.md and the rows have the reply to `usi` of check/usi.txt. Its last line is `N passed, M failed`."""

import os
import re
import subprocess
import sys

from cited import missing
from definitions import PAGE, page_now
from trusted import told

TOP = os.path.dirname(os.path.dirname(os.path.abspath(__file__)))
CRATES = os.path.join(TOP, "crates")
USES = os.path.join(CRATES, "test_examples", "src")
# The goals of the Makefile that README.md has to name: the one that runs the program, and the one that
# tests it.
GOALS = ("run", "test")
BLOCK = re.compile(r"```rust\n.*?```\n", re.S)
ANY_BLOCK = re.compile(r"```.*?```", re.S)
LINK = re.compile(r"\]\(([^)\s]+)\)")
PROOFS = os.path.join(TOP, "docs", "PROOFS.md")
# What docs/PROOFS.md says of the definitions that are to be trusted.
COUNTED = re.compile(r"The law stands on .*? `replay` \[ok\] on [^.]*\.")

# What has the reply to `usi` too: the page, and what tests want that are written in Rattle or run by the toolchain.
REPLIES = (
    "docs/PROTOCOL.md",
    "crates/test_rows/data/dialogues.txt",
    "crates/test_support/src/rows.rt",
    "crates/usi_host/stdout",
)
REPLY = re.compile(r"^id name .*?^usiok\n", re.M | re.S)


def read(path):
    with open(path, encoding="utf-8") as text:
        return text.read()


def uses():
    """Each library crate with the texts of its uses, file by file: its name stands in the first line of each."""
    found = {}
    for name in sorted(os.listdir(USES)):
        text = read(os.path.join(USES, name))
        of = re.match(r"//! A use of `(\w+)`\.\n", text)
        if of:
            found.setdefault(of.group(1), []).append(text[text.index("\nuse ") + 1 :])
    return found.items()


def pages():
    """Each page of the top, of docs/ with its notes, and of a crate."""
    crates = [os.path.join(CRATES, name) for name in sorted(os.listdir(CRATES))]
    for folder in [TOP, os.path.join(TOP, "docs"), os.path.join(TOP, "docs", "notes"), *crates]:
        for name in sorted(os.listdir(folder)):
            if name.endswith(".md"):
                yield os.path.join(folder, name)


def anchors(page):
    """What leads to the headings of a page."""
    for heading in re.findall(r"^#+ (.*)$", ANY_BLOCK.sub("", read(page)), re.M):
        yield re.sub(r"[^\w -]", "", heading.lower()).replace(" ", "-")


def leads_nowhere(page, link):
    """Whether a link of the page within the repository has no file, or no heading, at its end."""
    if "://" in link:
        return False
    path, _, anchor = link.partition("#")
    target = os.path.join(os.path.dirname(page), path) if path else page
    return not os.path.exists(target) or (anchor != "" and anchor not in anchors(target))


def dead_links(page):
    """The links of a page that lead nowhere."""
    return [link for link in LINK.findall(ANY_BLOCK.sub("", read(page))) if leads_nowhere(page, link)]


def counted():
    """docs/PROOFS.md, and the same with the counts of now."""
    was = read(PROOFS)
    return was, COUNTED.sub(lambda _: told(), was) if COUNTED.search(was) else None


def has_reply(path):
    """Whether each reply to `usi` in the file, and at least one, is that of check/usi.txt."""
    text = re.sub(r"^> |^.*= \"(?=id name )", "", read(os.path.join(TOP, path)), flags=re.M)
    return set(REPLY.findall(text)) == {read(os.path.join(TOP, "check", "usi.txt"))}


def is_kept(path, was, wanted):
    """Whether the page is as it is wanted; with `--write` it is made so."""
    if wanted is not None and was != wanted and "--write" in sys.argv[1:]:
        with open(path, "w", encoding="utf-8") as page:
            page.write(wanted)
        return True
    return was == wanted


def main():
    passed = failed = 0
    for path, (was, wanted) in ((PAGE, page_now()), (PROOFS, counted())):
        if is_kept(path, was, wanted):
            passed += 1
        else:
            failed += 1
            print(f"{os.path.relpath(path, TOP)} is not as the definitions are: check/readmes.py --write")
    for crate, its in uses():
        path = os.path.join(CRATES, crate, "README.md")
        text = read(path)
        rest = iter(its)
        wanted = BLOCK.sub(lambda _: f"```rust\n{next(rest)}```\n", text, count=len(its))
        if is_kept(path, text, wanted) and len(BLOCK.findall(wanted)) >= len(its):
            passed += 1
        else:
            failed += 1
            print(f"crates/{crate}/README.md does not show its uses as crates/test_examples has them")
    readme = read(os.path.join(TOP, "README.md"))
    makefile = read(os.path.join(TOP, "Makefile"))
    for goal in GOALS:
        if f"`make {goal}`" in readme and re.search(rf"^{goal}:", makefile, re.M):
            passed += 1
        else:
            failed += 1
            print(f"README.md does not name `make {goal}`, or the Makefile has no such goal")
    for path in REPLIES:
        if has_reply(path):
            passed += 1
        else:
            failed += 1
            print(f"{path} has another reply to usi than check/usi.txt")
    toolchain = subprocess.run(["rt", "version"], capture_output=True, text=True, check=True).stdout.strip()
    named = re.findall(r"`(rattle-kit[^`]*)`", readme)
    if toolchain in named:
        passed += 1
    else:
        failed += 1
        print(f"README.md names the toolchain {named}, and rt version prints {toolchain}")
    for page in pages():
        dead, absent = dead_links(page), list(missing(page))
        for is_wrong, what in (dead, "has links that lead nowhere"), (absent, "cites what is not there"):
            if is_wrong:
                failed += 1
                print(f"{os.path.relpath(page, TOP)} {what}: {'; '.join(is_wrong)}")
            else:
                passed += 1
    print(f"{passed} passed, {failed} failed")
    return 1 if failed else 0


if __name__ == "__main__":
    sys.exit(main())
