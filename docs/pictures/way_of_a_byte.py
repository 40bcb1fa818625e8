#!/usr/bin/env python3
"""Draws the way of a byte, from a front end through the crates and back, as `way_of_a_byte.svg` beside this
script. It needs Python 3 alone."""

import html
import os

WIDTH, HEIGHT = 980, 640
INK, PALE = "#1a202c", "#718096"
OUTSIDE, PROGRAM, MANY, SESSION, SEARCH = "#edf2f7", "#e9d8fd", "#bee3f8", "#c6f6d5", "#fefcbf"

# Left edge, top, width, colour, name, and what it does.
BOXES = {
    "front end": (40, 50, 280, OUTSIDE, "a front end", "standard input and output"),
    "script": (350, 50, 280, OUTSIDE, "a script", "standard input and output"),
    "clients": (660, 50, 280, OUTSIDE, "many clients", "a Unix socket"),
    "usi_stdio": (40, 170, 280, PROGRAM, "usi_stdio", "reads, feeds, works, writes, flushes"),
    "usi_replay": (350, 170, 280, PROGRAM, "usi_replay", "does what the lines of a script say"),
    "socket_loop": (660, 170, 280, PROGRAM, "socket_loop", "a turn: accept, read, work, write"),
    "host_core": (505, 280, 280, MANY, "host_core, session_slots", "open sessions by ids never used again"),
    "usi_lines": (40, 390, 280, SESSION, "usi_lines, shogi_sfen", "bytes to lines, lines to commands"),
    "usi_session": (350, 390, 280, SESSION, "usi_session", "answers a command, queues the reply"),
    "shogi_search": (350, 500, 280, SEARCH, "shogi_search, shogi_eval", "exact minimax, in slices"),
    "shared_table": (660, 500, 280, SEARCH, "shared_table", "a bounded memory, shared by all sessions"),
    "shogi_moves": (40, 500, 280, SEARCH, "shogi_moves, shogi_core", "legal moves of valid positions"),
}
TALL = 62

# A line's points, whether it has a head at its start too, and what goes along it with its place.
LINES = (
    ([(180, 112), (180, 170)], True, "bytes in, replies out", (190, 145)),
    ([(490, 112), (490, 170)], True, "lines in, all replies at its end", (500, 145)),
    ([(800, 112), (800, 170)], True, "a session each", (810, 145)),
    ([(180, 232), (180, 370), (430, 370), (430, 390)], True, "feed, work, take", (190, 305)),
    ([(560, 232), (560, 280)], True, "events", (570, 260)),
    ([(730, 232), (730, 280)], True, "events", (740, 260)),
    ([(560, 342), (560, 390)], True, "feed, work, take", (570, 370)),
    ([(350, 421), (320, 421)], True, "", (0, 0)),
    ([(490, 452), (490, 500)], True, "a position and a depth; the value and the best move", (500, 480)),
    ([(630, 531), (660, 531)], True, "", (0, 0)),
    ([(350, 531), (320, 531)], True, "", (0, 0)),
)

NOTES = (
    (40, 30, "one session"),
    (350, 30, "replay"),
    (660, 30, "serve"),
    (40, 600, "Down: bytes, lines, commands, positions. Back up: the value, the info line of each depth, bestmove."),
    (40, 620, "usi_host reads the command line and starts one of the three ways. The grey boxes lie outside of it."),
)


def text(x, y, words, size=13, colour=INK, anchor="start", weight="normal"):
    return (
        f'<text x="{x}" y="{y}" font-size="{size}" fill="{colour}" text-anchor="{anchor}" '
        f'font-weight="{weight}">{html.escape(words)}</text>'
    )


def box(x, y, wide, colour, name, does):
    middle = x + wide / 2
    return [
        f'<rect x="{x}" y="{y}" width="{wide}" height="{TALL}" rx="8" fill="{colour}" stroke="{INK}"/>',
        text(middle, y + 26, name, 15, INK, "middle", "bold"),
        text(middle, y + 47, does, 12.5, INK, "middle"),
    ]


def line(points, both, words, place):
    path = "M" + "L".join(f"{x} {y}" for x, y in points)
    start = ' marker-start="url(#head)"' if both else ""
    drawn = [f'<path d="{path}" fill="none" stroke="{INK}" stroke-width="1.5"{start} marker-end="url(#head)"/>']
    if words:
        drawn.append(text(*place, words, 12, PALE))
    return drawn


def main():
    drawn = [
        f'<svg xmlns="http://www.w3.org/2000/svg" viewBox="0 0 {WIDTH} {HEIGHT}" font-family="sans-serif">',
        '<defs><marker id="head" viewBox="0 0 10 10" refX="9" refY="5" markerWidth="7" markerHeight="7" '
        f'orient="auto-start-reverse"><path d="M0 0L10 5L0 10z" fill="{INK}"/></marker></defs>',
        f'<rect width="{WIDTH}" height="{HEIGHT}" fill="white"/>',
    ]
    for parts in LINES:
        drawn += line(*parts)
    for parts in BOXES.values():
        drawn += box(*parts)
    drawn += [text(x, y, words, 13, PALE) for x, y, words in NOTES]
    drawn.append("</svg>")
    path = os.path.join(os.path.dirname(os.path.abspath(__file__)), "way_of_a_byte.svg")
    with open(path, "w", encoding="utf-8") as picture:
        picture.write("\n".join(drawn) + "\n")


if __name__ == "__main__":
    main()
