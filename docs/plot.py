#!/usr/bin/env python3
"""Draws docs/time_against_rows.svg from the table 'Time against rows' of docs/FIGURES.md.

usage: python3 docs/plot.py

The table's first column is a count of rows, each other one a workload, in seconds. The picture has rows on the x axis and
seconds on the y axis, both linear, so that time that grows with the rows is a straight line.
"""

import os
import re

HERE = os.path.dirname(os.path.abspath(__file__))
HEADING = "### Time against rows"
WIDTH, HEIGHT, LEFT, RIGHT, TOP, BOTTOM = 720, 400, 56, 120, 24, 48
INKS = ("#1b6ca8", "#b4541a", "#3a7d44")


def table_of(text):
    """The names of the workloads, and a row of numbers a line: rows, and the seconds of each workload."""
    section = text[text.index(HEADING) + len(HEADING) :]
    lines = [line for line in section.split("\n### ")[0].splitlines() if line.startswith("|")]
    cells = [[cell.replace("`", "").strip(" *") for cell in line.strip("|").split("|")] for line in lines]
    rows = [[float(re.sub(r"[ \u202f]", "", cell)) for cell in line] for line in cells[2:]]
    return cells[0][1:], rows


def step_of(most):
    """A round step that gives four to eight lines of a grid."""
    step = 10.0 ** (len(str(int(most))) - 1) if most >= 1 else 0.1
    while most / step > 8:
        step *= 2
    while most / step < 4:
        step /= 2
    return step


def grid(most, along, line, label):
    step, at, parts = step_of(most), 0.0, []
    while at <= most * 1.001:
        parts += [line(along(at)), label(along(at), f"{at:g}")]
        at += step
    return parts


def drawn(names, rows):
    most_rows, most_time = rows[-1][0] / 1e6, max(max(row[1:]) for row in rows)
    x = lambda millions: LEFT + millions / most_rows * (WIDTH - LEFT - RIGHT)
    y = lambda seconds: HEIGHT - BOTTOM - seconds / most_time * (HEIGHT - TOP - BOTTOM)
    parts = [
        f'<svg xmlns="http://www.w3.org/2000/svg" viewBox="0 0 {WIDTH} {HEIGHT}" font-family="sans-serif" font-size="12" fill="#333">',
        f'<rect width="{WIDTH}" height="{HEIGHT}" fill="#fff"/>',
    ]
    parts += grid(
        most_rows,
        x,
        lambda at: f'<path d="M{at:.1f} {TOP}V{HEIGHT - BOTTOM}" stroke="#ddd"/>',
        lambda at, text: f'<text x="{at:.1f}" y="{HEIGHT - BOTTOM + 18}" text-anchor="middle">{text}</text>',
    )
    parts += grid(
        most_time,
        y,
        lambda at: f'<path d="M{LEFT} {at:.1f}H{WIDTH - RIGHT}" stroke="#ddd"/>',
        lambda at, text: f'<text x="{LEFT - 8}" y="{at + 4:.1f}" text-anchor="end">{text}</text>',
    )
    parts.append(f'<text x="{(LEFT + WIDTH - RIGHT) / 2:.0f}" y="{HEIGHT - 8}" text-anchor="middle">million rows</text>')
    parts.append(f'<text x="8" y="{TOP - 8}">seconds</text>')
    for number, name in enumerate(names):
        ink, points = INKS[number % len(INKS)], [(x(row[0] / 1e6), y(row[number + 1])) for row in rows]
        path = "L".join(f"{across:.1f} {down:.1f}" for across, down in points)
        parts.append(f'<path d="M{path}" fill="none" stroke="{ink}" stroke-width="2"/>')
        parts += [f'<circle cx="{across:.1f}" cy="{down:.1f}" r="3" fill="{ink}"/>' for across, down in points]
        parts.append(f'<text x="{points[-1][0] + 8:.1f}" y="{points[-1][1] + 4:.1f}" fill="{ink}">{name}</text>')
    return "\n".join(parts + ["</svg>"]) + "\n"


if __name__ == "__main__":
    with open(f"{HERE}/FIGURES.md", encoding="utf-8") as page:
        names, rows = table_of(page.read())
    with open(f"{HERE}/time_against_rows.svg", "w", encoding="utf-8") as picture:
        picture.write(drawn(names, rows))
