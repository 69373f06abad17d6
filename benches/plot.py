#!/usr/bin/env python3
"""Draws docs/speed.svg, changes a second by board, from out/benches/results.txt."""
import math
import pathlib

root = pathlib.Path(__file__).resolve().parent.parent
rows = []
for line in (root / "out/benches/results.txt").read_text().splitlines():
    w = line.split()
    if len(w) > 17 and w[7] == "speed":
        rows.append((w[0], w[1], w[2], int(w[10]), int(w[15])))

boards = list(dict.fromkeys(r[0] for r in rows))
kinds = list(dict.fromkeys((r[1], r[2]) for r in rows))
low, high = 10 ** 3, 10 ** 9
left, top, tall, bar, gap = 70, 40, 300, 9, 26
wide = len(boards) * (len(kinds) * 2 * bar + gap)


def y(rate):
    return top + tall * (1 - (math.log10(max(rate, low)) - math.log10(low)) / (math.log10(high) - math.log10(low)))


colours = {("heap", "nine"): "#1f5fa8", ("heap", "pull"): "#6fa8dc", ("wheel", "nine"): "#a8521f", ("wheel", "pull"): "#e0a06f"}
svg = [f'<svg xmlns="http://www.w3.org/2000/svg" width="{left + wide + 20}" height="{top + tall + 90}" font-family="sans-serif" font-size="11">']
svg.append(f'<text x="{left}" y="20" font-size="13">Changes a second by board (full bar: the proved program; outlined: plain Rust)</text>')
for e in range(3, 10):
    svg.append(f'<line x1="{left}" x2="{left + wide}" y1="{y(10 ** e):.1f}" y2="{y(10 ** e):.1f}" stroke="#ddd"/>')
    svg.append(f'<text x="{left - 8}" y="{y(10 ** e) + 4:.1f}" text-anchor="end">10^{e}</text>')
x = left + gap / 2
for board in boards:
    svg.append(f'<text x="{x + len(kinds) * bar}" y="{top + tall + 16}" text-anchor="middle">{board}</text>')
    for kind in kinds:
        for r in rows:
            if r[0] == board and (r[1], r[2]) == kind:
                for rate, fill in ((r[3], colours[kind]), (r[4], "none")):
                    svg.append(f'<rect x="{x:.1f}" y="{y(rate):.1f}" width="{bar - 1}" height="{top + tall - y(rate):.1f}" fill="{fill}" stroke="{colours[kind]}"/>')
                    x += bar
    x += gap
x = left
for kind in kinds:
    svg.append(f'<rect x="{x}" y="{top + tall + 34}" width="10" height="10" fill="{colours[kind]}"/>')
    svg.append(f'<text x="{x + 14}" y="{top + tall + 43}">{kind[0]}, {"nine values" if kind[1] == "nine" else "pull ranges"}</text>')
    x += 130
svg.append("</svg>")
(root / "docs/speed.svg").write_text("\n".join(svg) + "\n")
