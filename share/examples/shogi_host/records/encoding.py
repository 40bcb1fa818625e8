"""The text of a record: UTF-8 with or without its mark, UTF-16 by its mark, Shift-JIS, EUC-JP."""

import codecs
import os
import re

from .game import Unreadable

MARKS = [
    (codecs.BOM_UTF8, "utf-8-sig"),
    (codecs.BOM_UTF16_LE, "utf-16"),
    (codecs.BOM_UTF16_BE, "utf-16"),
]
# A record may name its encoding in its first line: `#KIF version=2.0 encoding=EUC-JP`, `'CSA encoding=SHIFT_JIS`.
NAMED = re.compile(rb"[#'].*encoding=([\w-]+)", re.I)
NAMES = {"utf-8": "utf-8", "shift_jis": "cp932", "shift-jis": "cp932", "euc-jp": "euc_jp", "euc_jp": "euc_jp"}
LINE_MAX = 100_000  # longer lines of a record are refused, in letters
# Letters that are no text: controls, ends of lines of other kinds than a record's own, and what XML has no place for.
UNPRINTED = re.compile("[\x00-\x1f\x7f-\x9f\u2028\u2029\ufffe\uffff]")
# Letters that a text in EUC-JP has many of if it is read as Shift-JIS.
HALF_WIDTH = re.compile("[\uff61-\uff9f]")


def refusal(data: bytes, at: int, encoding: str, why: str) -> Unreadable:
    """What is said of a byte that cannot be read."""
    before = data[:at]
    line = before.count(b"\n") + 1
    column = len(before.rpartition(b"\n")[2].decode(encoding, "replace")) + 1
    return Unreadable(line, column, why)


def decoded(data: bytes, encoding: str, name: str) -> str:
    """The text in an encoding that the record names or marks."""
    try:
        return data.decode(encoding)
    except UnicodeDecodeError as why:
        raise refusal(data, why.start, encoding, f"the record says that it is {name}, and is not") from why


def text_of_bytes(data: bytes) -> str:
    """The text of a record."""
    for mark, encoding in MARKS:
        if data.startswith(mark):
            return decoded(data, encoding, encoding.removesuffix("-sig").upper())
    named = NAMED.match(data.split(b"\n", 1)[0])
    if named and named[1].decode().lower() in NAMES:
        return decoded(data, NAMES[named[1].decode().lower()], named[1].decode())
    texts, stops = {}, {}
    for encoding in ("utf-8", "cp932", "euc_jp"):
        try:
            texts[encoding] = data.decode(encoding)
        except UnicodeDecodeError as why:
            stops[encoding] = why.start
    if "utf-8" in texts:
        return texts["utf-8"]
    if texts:
        return min(texts.values(), key=lambda text: len(HALF_WIDTH.findall(text)))
    furthest = max(("cp932", "euc_jp"), key=lambda encoding: stops[encoding])
    raise refusal(data, stops[furthest], furthest, "neither UTF-8 nor UTF-16 nor Shift-JIS nor EUC-JP")


def plain(text: str) -> str:
    """A text with a blank in place of each letter that is none."""
    return UNPRINTED.sub(" ", text)


def split_lines(data: bytes) -> list[str]:
    """The lines of a text, which end with CR, LF or both, without the mark that old systems put at its end."""
    return re.split(r"\r\n|\n|\r", text_of_bytes(data).rstrip("\x1a"))


def lines_of(data: bytes) -> list[str]:
    """The lines of a text, as plain text."""
    return [plain(line) for line in split_lines(data)]


def text_of_name(name: str) -> str:
    """The plain text of a word of the command line, as the name of a file, in one of these encodings. What is in none
    of them is shown by its bytes."""
    data = os.fsencode(name)
    try:
        return plain(text_of_bytes(data))
    except Unreadable:
        return plain(data.decode(errors="backslashreplace"))


def want_text(lines: list[str]) -> None:
    """Raises `Unreadable` for lines that are no text, and for one without an end."""
    for number, line in enumerate(lines, 1):
        if len(line) > LINE_MAX:
            raise Unreadable(number, 1, f"a line of more than {LINE_MAX:,} letters")
        if "\0" in line:
            raise Unreadable(number, line.index("\0") + 1, "no text: the letter U+0000")
