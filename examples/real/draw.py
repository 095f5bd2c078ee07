#!/usr/bin/env python3
"""Draws answers as SVG, from what `solve` found: the tour, the routes, the boards, the puzzle and the rolls.

    examples/real/draw.py FOLDER        writes FOLDER/NAME.svg; the texts and certificates go there too
"""
import collections
import pathlib
import sys

import make
from make import bprice, facts

# Hues that stay apart for most eyes (Okabe and Ito, Color Universal Design, 2008), and two pale ones.
HUES = ["#0072B2", "#D55E00", "#009E73", "#CC79A7", "#E69F00", "#56B4E9", "#8C564B", "#B8B8B8", "#F0E442", "#6A5ACD"]
INK, PALE = "#222222", "#e6e6e6"


def svg(width, height, parts):
    return (f'<svg xmlns="http://www.w3.org/2000/svg" viewBox="0 0 {width} {height}" width="{width}" height="{height}" font-family="sans-serif" '
            f'font-size="11"><rect width="100%" height="100%" fill="white"/>\n' + "\n".join(parts) + "\n</svg>\n")


def line(one, other, color):
    return f'<line x1="{one[0]:.1f}" y1="{one[1]:.1f}" x2="{other[0]:.1f}" y2="{other[1]:.1f}" stroke="{color}" stroke-width="2"/>'


def dot(place, text, color=INK):
    return f'<circle cx="{place[0]:.1f}" cy="{place[1]:.1f}" r="4" fill="{color}"/><text x="{place[0] + 6:.1f}" y="{place[1] - 4:.1f}" fill="{INK}">{text}</text>'


def cell(row, column, color, size=28):
    return f'<rect x="{10 + size * column}" y="{10 + size * row}" width="{size}" height="{size}" fill="{color}" stroke="white"/>'


def scaled(places, width=460, height=320):
    """Places on a picture of this size, with the second number upwards."""
    (left, right), (low, high) = ((min(values), max(values)) for values in zip(*places))
    return [(20 + (x - left) * (width - 60) / (right - left), height - 20 - (y - low) * (height - 50) / (high - low)) for x, y in places]


def ulysses16(point):
    places = scaled([(longitude, latitude) for latitude, longitude in facts.ULYSSES])
    ends = [tuple(int(number) - 1 for number in name[1:].split("_")) for name, value in point.items() if value]
    return svg(480, 330, [line(places[i], places[j], HUES[0]) for i, j in ends] + [dot(place, i) for i, place in enumerate(places, 1)])


def p_n16_k8(point):
    places = scaled([place for place, _ in facts.ROUTING])
    routes, parts = [name[1:].split("_") for name, value in point.items() if value], []
    for hue, route in zip(HUES, routes):
        order = min(make.itertools.permutations(map(int, route)), key=lambda trip: make.length(trip, [place for place, _ in facts.ROUTING]))
        parts += [line(places[i], places[j], hue) for i, j in zip((0, *order), (*order, 0))]
    return svg(480, 330, parts + [dot(place, i or "depot") for i, place in enumerate(places)])


def board(size, colors):
    """A board with the colour of each field, by its number from 1, and of the others that of a chessboard."""
    parts = []
    for row, column in make.itertools.product(range(size), repeat=2):
        parts.append(cell(row, column, colors.get(row * size + column + 1, PALE if (row + column) % 2 else "#f7f7f7")))
    return svg(20 + 28 * size, 20 + 28 * size, parts)


def five_queens(point):
    return board(8, {int(name[1:]): INK for name, value in point.items() if value})


def queen8_8(point):
    colors = [name[1:].split("_") for name, value in point.items() if value and name.startswith("x")]
    order = list(dict.fromkeys(color for _, color in colors))
    return board(8, {int(field): HUES[order.index(color)] for field, color in colors})


def nonogram(point):
    length, parts = len(facts.NONOGRAM_COLUMNS), []
    for row, runs in enumerate(facts.NONOGRAM_ROWS):
        number = next(number for number in range(1, 1000) if point[f"row{row + 1}_{number}"])
        filled = list(make.placements(runs, length))[number - 1]
        parts += [cell(row, column, INK if column in filled else PALE) for column in range(length)]
    return svg(20 + 28 * length, 20 + 28 * len(facts.NONOGRAM_ROWS), parts)


def paper_rolls(point):
    """The patterns with how many rolls of the machine are cut by each."""
    cuts = collections.Counter()
    for k in {name.split("_")[1] for name in point if name.startswith("x")}:
        pattern = tuple((width, point[f"x{width}_{k}"]) for width in facts.ROLLS if point[f"x{width}_{k}"])
        cuts[pattern] += bool(pattern)
    parts, scale = [], 440 / facts.MACHINE
    for place, (pattern, many) in enumerate(sorted(cuts.items(), key=lambda item: -item[1])):
        at, y = 34.0, 10 + 22 * place
        parts.append(f'<text x="6" y="{y + 13}">{many} x</text><rect x="{at}" y="{y}" width="440" height="18" fill="{PALE}"/>')
        for width in (width for width, times in pattern for _ in range(times)):
            hue = HUES[list(facts.ROLLS).index(width) % len(HUES)]
            parts.append(f'<rect x="{at:.1f}" y="{y}" width="{width * scale:.1f}" height="18" fill="{hue}" fill-opacity="0.55" stroke="white"/>'
                         f'<text x="{at + 4:.1f}" y="{y + 13}" fill="{INK}">{width}</text>')
            at += width * scale
    return svg(490, 20 + 22 * len(cuts), parts)


DRAWN = {"ulysses16": ulysses16, "p_n16_k8": p_n16_k8, "five_queens": five_queens, "queen8_8": queen8_8, "nonogram": nonogram, "paper_rolls": paper_rolls}


def main():
    folder = pathlib.Path(sys.argv[1])
    folder.mkdir(parents=True, exist_ok=True)
    for name, draw in DRAWN.items():
        _, lp, dec = make.write(folder, name)
        answer = bprice.solve(lp, dec, cert=folder / f"{name}.cert")
        answer.check()
        (folder / f"{name}.svg").write_text(draw(answer.point), encoding="ascii")


if __name__ == "__main__":
    main()
