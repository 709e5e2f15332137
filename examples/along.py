#!/usr/bin/env python3
"""Draws where `locate` puts the faults along their lines, as an SVG: Python's standard library alone, outside what is
proved.

    along.py LOG FILE.svg

LOG is what `locate` wrote. Each line of it is a row: a line from its beginning (0) to its end (1000), a ring at the
distance of the reactance method and a cross at Takagi's. What lies outside of the picture is named at its edge.
"""
import sys

import plain_relay as rules
import sampled_values as sv
from picture import Drawing

LEFT, TOP, WIDTH, ROW = 150, 56, 520, 26
LOW, HIGH = -200, 1400                      # thousandths of the line that are drawn


def x(distance):
    return LEFT + WIDTH * (distance - LOW) / (HIGH - LOW)


def mark(drawing, y, distance, colour, is_ring):
    if not LOW <= distance <= HIGH:
        drawing.text(LEFT + WIDTH + 8 if distance > HIGH else LEFT - 8, y + 4, str(distance),
                     "start" if distance > HIGH else "end", 11)
    elif is_ring:
        drawing.dot(x(distance), y, 5, "none")
    else:
        for turn in (-1, 1):
            drawing.line(x(distance) - 4, y - 4 * turn, x(distance) + 4, y + 4 * turn, colour, 1.6)


def draw(events):
    drawing = Drawing()
    bottom = TOP + ROW * len(events)
    for distance in range(0, HIGH + 1, 200):
        drawing.line(x(distance), TOP - 6, x(distance), bottom, "#ddd")
        drawing.text(x(distance), bottom + 16, str(distance), "middle", 11)
    drawing.text(x(1000), bottom + 32, "thousandths of the line", "end", 11)
    for k, event in enumerate(events):
        _, loop, distance, _, takagi = event.words.split(" ")
        y = TOP + ROW * (k + 0.5)
        drawing.text(12, y + 4, f"{event.name} {event.number} {loop}")
        drawing.line(x(0), y, x(1000), y, "#555", 3)
        for found, colour, is_ring in ((distance, "#000", True), (takagi, "#b3261e", False)):
            if found != "none":
                mark(drawing, y, int(found), colour, is_ring)
    drawing.text(LEFT, 22, "distance to the fault: a ring by the reactance, a cross by Takagi's method", weight="bold")
    size = LEFT + WIDTH + 90, bottom + 46
    return (f'<svg xmlns="http://www.w3.org/2000/svg" width="{size[0]}" height="{size[1]}" font-family="sans-serif">\n'
            '<rect width="100%" height="100%" fill="#fff"/>\n' + "\n".join(drawing.out) + "\n</svg>\n")


def main(log_path, target):
    events = [event for event in rules.log_lines(log_path) if event.words.startswith("locate ")]
    with open(target, "w", encoding="ascii") as file:
        file.write(draw(events))


if __name__ == "__main__":
    if len(sys.argv) != 3:
        sys.exit(__doc__)
    try:
        main(*sys.argv[1:])
    except (sv.Unreadable, OSError, ValueError) as error:
        sys.exit(f"along: {error}")
