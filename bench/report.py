"""Plots and tables for docs/BENCHMARKS.md."""

import math
import os
import platform
import re

TOP = os.path.dirname(os.path.dirname(os.path.abspath(__file__)))
DOCS = os.path.join(TOP, "docs")
COLORS = ["#2b6cb0", "#c05621", "#2f855a"]
WIDTH, HEIGHT = 720, 420
LEFT, RIGHT, UP, DOWN = 100, 150, 40, 60


def plot(file_name, title, across, up, curves, marks):
    """Writes docs/benchmarks/FILE_NAME.svg: curves over a scale across, by powers of ten where it is told so,
    and one by powers of ten upwards. `curves` has lists of points by their names, `marks` the labels
    below the plot."""
    label, by_tens = across
    xs = [x for points in curves.values() for x, _ in points]
    ys = [y for points in curves.values() for _, y in points]
    low, high = math.floor(math.log10(min(ys))), math.ceil(math.log10(max(ys)))
    scale = math.log10 if by_tens else float
    first, last = scale(min(xs)), scale(max(xs))

    def place(x, y):
        right = LEFT + (scale(x) - first) / (last - first) * (WIDTH - LEFT - RIGHT)
        return right, HEIGHT - DOWN - (math.log10(y) - low) / (high - low) * (HEIGHT - UP - DOWN)

    out = [
        f'<svg xmlns="http://www.w3.org/2000/svg" viewBox="0 0 {WIDTH} {HEIGHT}" font-family="sans-serif" font-size="13">',
        f'<rect width="{WIDTH}" height="{HEIGHT}" fill="white"/>',
        f'<text x="{LEFT}" y="24" font-size="15">{title}</text>',
        f'<text x="{(LEFT + WIDTH - RIGHT) / 2}" y="{HEIGHT - 16}" text-anchor="middle">{label}</text>',
        f'<text x="20" y="{HEIGHT / 2}" text-anchor="middle" transform="rotate(-90 20 {HEIGHT / 2})">{up}</text>',
    ]
    for power in range(low, high + 1):
        _, y = place(min(xs), 10.0**power)
        text = f"{10**power:,}" if power >= 0 else f"{10.0**power:g}"
        out.append(f'<path d="M{LEFT} {y:.1f}H{WIDTH - RIGHT}" stroke="#ddd"/>')
        out.append(f'<text x="{LEFT - 8}" y="{y + 4:.1f}" text-anchor="end">{text}</text>')
    for mark in marks:
        x, _ = place(mark, 10.0**low)
        out.append(f'<text x="{x:.1f}" y="{HEIGHT - DOWN + 20}" text-anchor="middle">{mark:,}</text>')
    # Names at the ends of the curves, moved apart where they would meet.
    ends = sorted((place(*points[-1])[1], name) for name, points in curves.items())
    free = 0.0
    for (name, points), color in zip(curves.items(), COLORS):
        spots = [place(x, y) for x, y in points]
        out.append(
            f'<polyline points="{" ".join(f"{x:.1f},{y:.1f}" for x, y in spots)}" fill="none" stroke="{color}" stroke-width="2"/>'
        )
        out.extend(f'<circle cx="{x:.1f}" cy="{y:.1f}" r="3.5" fill="{color}"/>' for x, y in spots)
    color_of = dict(zip(curves, COLORS))
    for y, name in ends:
        free = max(free, y)
        right = max(place(*point)[0] for point in curves[name])
        out.append(f'<text x="{right + 10:.1f}" y="{free + 4:.1f}" fill="{color_of[name]}">{name}</text>')
        free += 16
    out.append("</svg>")
    folder = os.path.join(DOCS, "benchmarks")
    os.makedirs(folder, exist_ok=True)
    with open(os.path.join(folder, f"{file_name}.svg"), "w", encoding="utf-8") as file:
        file.write("\n".join(out) + "\n")


def machine():
    with open("/proc/cpuinfo", encoding="utf-8") as lines:
        names = [line.split(":", 1)[1].strip() for line in lines if line.startswith("model name")]
    return f"{names[0] if names else platform.machine()}, {os.cpu_count()} cores, Linux {platform.release()}"


def table(head, rows):
    lines = [f"| {' | '.join(head)} |", f"|{'---|' * len(head)}"]
    return "\n".join(lines + [f"| {' | '.join(row)} |" for row in rows])


def put(section, text):
    """Writes the text between the marks of a section of docs/BENCHMARKS.md."""
    path = os.path.join(DOCS, "BENCHMARKS.md")
    with open(path, encoding="utf-8") as file:
        page = file.read()
    begin, end = f"<!-- {section} -->\n", f"<!-- end of {section} -->\n"
    pattern = re.compile(re.escape(begin) + ".*?" + re.escape(end), re.S)
    if not pattern.search(page):
        raise ValueError(f"docs/BENCHMARKS.md has no section {section}")
    page = pattern.sub(lambda _: begin + text.strip("\n") + "\n" + end, page)
    with open(path, "w", encoding="utf-8") as file:
        file.write(page)
