#!/usr/bin/env python3
"""Looks up what the pages cite of the code between backticks: files, and those behind a crate and a colon in that
crate; calls as `Host::run`; and the clauses in brackets behind a call or a type, as in `serve` [whole], among its clauses
and the fields of their records. Prints what is not there; the status is 1 if there is something."""

import functools
import os
import re
import sys

from trusted import all_definitions

TOP = os.path.dirname(os.path.dirname(os.path.abspath(__file__)))
CRATES = os.path.join(TOP, "crates")
# Folders of no files of the repository.
MADE = (".git", "out", "dist", "__pycache__")
BLOCK = re.compile(r"```.*?```", re.S)
SPAN = re.compile(r"`([^`\n]+)`")
# A part of a line that one crate may begin, as in `minimax`: `bounds.rt`.
PART = re.compile(r"\||; |\. ")
FILE = re.compile(r"[\w./@-]*\w\.(?:antt|bash|c|cfg|csv|edit|h|md|py|rt|service|sh|svg|txt)")
PATH = re.compile(r"([A-Z]\w*)::(\w+)")
CITED = re.compile(r"((?:`[^`\n]+`(?:, | and )?)+) \[([a-z_]+(?:, [a-z_]+)*)\](?!\()")
OWNER = re.compile(r"(?:pub )?(?:impl|trait)\b")
ALIAS = re.compile(r"pub type (\w+)<?.*? = (\w+)")
CALL = re.compile(r'\s*(?:pub )?(?:unsafe )?(?:extern "C" )?fn (\w+)')
CLAUSE = re.compile(r"\s*(?:ensures|requires) (?:(\w+) )?\{")
RECORD = re.compile(r"(?:\w+ )*record ")
FIELD = re.compile(r"\s+(?:pub )?(\w+) :")
WORD = re.compile(r"\w+")


def read(path):
    with open(path, encoding="utf-8") as text:
        return text.read()


@functools.cache
def files():
    """The files of the repository, from its top."""
    found = []
    for folder, folders, names in os.walk(TOP):
        folders[:] = [it for it in folders if it not in MADE]
        found += [os.path.relpath(os.path.join(folder, name), TOP) for name in names]
    return found


def owner_of(line):
    """The trait, or the type that `impl` is for; none if that is `()`."""
    text = line.split("{")[0]
    for _ in range(text.count("<")):
        text = re.sub(r"<[^<>]*>", "", text)
    words = WORD.findall(text)
    before = next((it for it in ("for", "trait") if it in words), "impl")
    return next(iter(words[words.index(before) + 1 :]), None)


class Call:
    """A call: its crate, its type if it has one, its name, and the text of each clause."""

    def __init__(self, crate, owner, name):
        self.crate, self.owner, self.name, self.clauses = crate, owner, name, {}


class Code:
    """The calls and definitions of all crates."""

    def __init__(self):
        self.definitions, self.by_name, self.calls, self.aliases, self.paths = all_definitions()[0], {}, [], {}, set()
        for crate, module, word in self.definitions:
            self.by_name.setdefault((crate, word), set()).add((crate, module, word))
        for path in files():
            if path.startswith("crates/") and path.endswith(".rt"):
                self.take_in(path.split("/")[1], read(os.path.join(TOP, path)))
        self.types = {it.owner for it in self.calls} | set(self.aliases)

    def take_in(self, crate, text):
        self.paths.update(PATH.findall(text))
        self.aliases.update(ALIAS.findall(text))
        owner = call = clause = None
        for line in text.splitlines():
            if line and not line[0].isspace() and line[0] not in "}#/":
                owner = owner_of(line) if OWNER.match(line) else None
            if match := CALL.match(line):
                call, clause = Call(crate, owner if line[0].isspace() else None, match[1]), None
                self.calls.append(call)
            elif call and line.strip() in ("{", "}"):
                call = None
            elif call:
                if match := CLAUSE.match(line):
                    clause = match[1] or ""
                if clause is not None:
                    call.clauses[clause] = f"{call.clauses.get(clause, '')}{line}\n"

    def of(self, owner, name, crate=None):
        """The calls of this name, or all of a type."""
        owner = self.aliases.get(owner, owner)
        return [
            it
            for it in self.calls
            if name in (None, it.name) and owner in (None, it.owner) and crate in (None, it.crate)
        ]

    def is_there(self, owner, name):
        return (owner, name) in self.paths or bool(self.of(owner, name))

    def defined(self, crate, text):
        """The definitions of the crate that a text names."""
        return {it for word in WORD.findall(text) for it in self.by_name.get((crate, word), ())}

    def cited_of(self, call):
        """The names of its clauses, and of the fields of records that these cite, or that such a record cites."""
        said = set(call.clauses)
        near = self.defined(call.crate, " ".join(call.clauses.values()))
        near |= {other for it in near for other in self.defined(call.crate, " ".join(self.definitions[it]))}
        for it in near:
            if RECORD.match(self.definitions[it][0]):
                said |= {match[1] for line in self.definitions[it][1:] if (match := FIELD.match(line))}
        return said

    def cited(self, spans, crate, last):
        """What may stand in brackets behind these calls or types, and the type that was named last."""
        said = set()
        for span in spans:
            owner, _, name = span.rpartition("::")
            if not owner and name in self.types:
                owner, name = name, None
            last = owner or last
            found = self.of(owner or last, name) or self.of(owner or None, name, crate) or self.of(owner or None, name)
            said.update(*map(self.cited_of, found))
        return said, last


def missing_files(line):
    """The files that a line cites and that are not there."""
    for part in PART.split(line):
        crate = None
        for match in SPAN.finditer(part):
            if part[match.end() :].startswith(":") and os.path.isdir(os.path.join(CRATES, match[1])):
                crate = f"crates/{match[1]}/"
            for word in match[1].split():
                if FILE.fullmatch(word):
                    end = "/" + word.lstrip("./")
                    if not any(f"/{it}".endswith(end) and it.startswith(crate or "") for it in files()):
                        yield word


def missing(page):
    """What a page cites and is not there."""
    code = the_code()
    crate = os.path.relpath(page, CRATES).split("/")[0]
    crate = None if crate == ".." else crate
    for line in BLOCK.sub("", read(page)).splitlines():
        yield from missing_files(line)
        for span in SPAN.findall(line):
            if (match := PATH.fullmatch(span)) and not code.is_there(*match.groups()):
                yield span
        last = None
        for calls, clauses in CITED.findall(line):
            spans = SPAN.findall(calls)
            said, last = code.cited(spans, crate, last)
            for clause in clauses.split(", "):
                if clause not in said:
                    yield f"{', '.join(spans)} [{clause}]"


@functools.cache
def the_code():
    return Code()


def main():
    status = 0
    for path in sorted(files()):
        if path.endswith(".md"):
            for it in missing(os.path.join(TOP, path)):
                status = 1
                print(f"{path}: {it} is not there")
    return status


if __name__ == "__main__":
    sys.exit(main())
