"""Pieces of SVG, and the colors of the pictures, light and dark."""

import html

COLORS = """
:root { --paper: #fff; --ink: #1a202c; --soft: #5b6472; --grid: #dde1e6; --curve: #2b6cb0;
  --black: #1a202c; --white: #fff; --played: #c2410c; --best: #0f766e;
  --board: #f3d9a4; --piece: #fbeccb; --edge: #6b4f1d; --red: #b91c1c; --seen: #e8bf6a; --threat: #dc2626;
  --time-black: #4a5568; --time-white: #a0aec0; }
@media (prefers-color-scheme: dark) {
:root { --paper: #14181f; --ink: #e5e9f0; --soft: #9aa5b4; --grid: #2c3440; --curve: #6cb2f5;
  --black: #0b0e13; --white: #e5e9f0; --played: #fb923c; --best: #2dd4bf;
  --board: #4a3b22; --piece: #6d5832; --edge: #c9b48a; --red: #fca5a5; --seen: #7a5f2b; --threat: #f87171;
  --time-black: #718096; --time-white: #cbd5e0; }
}
"""


def text_at(x: float, y: float, text: str, **attributes: object) -> str:
    """A text."""
    words = "".join(f' {name.rstrip("_").replace("_", "-")}="{value}"' for name, value in attributes.items())
    return f'<text x="{x:.1f}" y="{y:.1f}"{words}>{html.escape(text)}</text>'


def path(d: str, **attributes: object) -> str:
    """A path."""
    words = "".join(f' {name.rstrip("_").replace("_", "-")}="{value}"' for name, value in attributes.items())
    return f'<path d="{d}"{words}/>'


def stone(x: float, y: float, black: bool, number: int) -> str:
    """The mark of a move: a disc with its number, black or white as its side."""
    fill, ink = ("--black", "--white") if black else ("--white", "--black")
    disc = f'<circle cx="{x:.1f}" cy="{y:.1f}" r="10" fill="var({fill})" stroke="var(--soft)" stroke-width="1.2"/>'
    words = {"text_anchor": "middle", "fill": f"var({ink})", "font_size": 13, "class_": "number"}
    return disc + text_at(x, y + 4.6, str(number), **words)
