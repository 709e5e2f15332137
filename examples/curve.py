#!/usr/bin/env python3
"""Draws a time-current curve of `backup` with the points at which a log operates, as an SVG: Python's standard library
alone, outside what is proved.

    curve.py SETTINGS CAPTURE FILE.svg CURVE TMS PICKUP=LOG ..

Each LOG is what `backup` wrote for these settings, this capture, CURVE, its PICKUP and TMS. The curve is that of IEC
60255-151 up to 20 times the pickup. A point is an `operate` of a log: across, the current at that sample as a multiple of
the pickup; up, the time since the phase's `start`. While a fault's current still fills its first cycle it is less than
later, so a point lies somewhat above the curve.
"""
import math
import sys

import plain_relay as rules
import sampled_values as sv
from picture import Drawing
from plain_studies import Backup

LEFT, TOP, WIDTH, HEIGHT = 70, 46, 560, 420
CURVES = {"very": (13.5, 1), "extremely": (80, 2)}
COLOURS = {"A": "#000000", "B": "#1a5fb4", "C": "#b3261e"}


class Plane:
    """Multiples across and seconds up, both by their logarithms."""

    def __init__(self, fastest, slowest):
        self.low, self.high = math.floor(math.log10(fastest)), math.ceil(math.log10(slowest))

    def x(self, multiple):
        return LEFT + WIDTH * math.log(multiple) / math.log(20)

    def y(self, seconds):
        return TOP + HEIGHT * (self.high - math.log10(seconds)) / (self.high - self.low)

    def grid(self, drawing):
        for multiple in (1, 1.5, 2, 3, 4, 5, 7, 10, 15, 20):
            drawing.line(self.x(multiple), TOP, self.x(multiple), TOP + HEIGHT, "#ddd")
            drawing.text(self.x(multiple), TOP + HEIGHT + 15, f"{multiple:g}", "middle")
        for power in range(self.low, self.high + 1):
            for k in (1, 2, 5):
                seconds = k * 10 ** power
                if power < self.high or k == 1:
                    drawing.line(LEFT, self.y(seconds), LEFT + WIDTH, self.y(seconds), "#ddd")
                    drawing.text(LEFT - 6, self.y(seconds) + 4, f"{seconds:g}", "end")
        drawing.box(LEFT, TOP, WIDTH, HEIGHT)
        drawing.text(LEFT + WIDTH, TOP + HEIGHT + 32, "multiple of the pickup", "end")
        drawing.text(LEFT - 6, TOP - 8, "s", "end")


def operations(lines, rate, log_path, words):
    """Each operate of the log as its phase, its multiple and its seconds since the start."""
    started, found = {}, []
    for event in rules.log_lines(log_path):
        _, phase, what = event.words.split(" ")
        if what == "start":
            started[event.name, phase] = event.number
        elif what == "operate":
            line = lines[event.name]
            square = Backup(line, *words).multiple(line.samples[event.number].i["ABC".index(phase)])
            found.append((phase, math.sqrt(square / 10 ** 6), (event.number - started[event.name, phase]) / rate))
    return found


def draw(found, curve, tms):
    k, alpha = CURVES[curve]
    seconds = lambda multiple: tms / 1000 * k / (multiple ** alpha - 1)
    plane = Plane(min([seconds(20)] + [s for *_, s in found]), max([seconds(1.5)] + [s for *_, s in found]))
    drawing = Drawing()
    plane.grid(drawing)
    steps = [20 ** (step / 200) for step in range(1, 201)]
    drawing.path([(plane.x(m), plane.y(seconds(m))) for m in steps if math.log10(seconds(m)) <= plane.high], "#555", 1.8)
    for phase, multiple, after in found:
        drawing.dot(plane.x(max(multiple, 1)), plane.y(after), 4, COLOURS[phase])
    drawing.text(LEFT, 20, f"{curve} inverse, TMS {tms / 1000:g}", weight="bold")
    drawing.text(LEFT + WIDTH, 20, "operated: A black, B blue, C red", "end")
    size = LEFT + WIDTH + 30, TOP + HEIGHT + 46
    return (f'<svg xmlns="http://www.w3.org/2000/svg" width="{size[0]}" height="{size[1]}" font-family="sans-serif">\n'
            '<rect width="100%" height="100%" fill="#fff"/>\n' + "\n".join(drawing.out) + "\n</svg>\n")


def main(settings_path, capture_path, target, curve, tms, *logs):
    settings = rules.Settings(settings_path)
    with open(capture_path, "rb") as file:
        sets = list(sv.heard(sv.records(file.read())[0]))
    lines = {keys["name"]: rules.Line(settings, keys, sets) for keys in settings.lines}
    found = []
    for log in logs:
        pickup, path = log.split("=", 1)
        found += operations(lines, settings.rate, path, (curve, pickup, tms))
    with open(target, "w", encoding="ascii") as file:
        file.write(draw(found, curve, int(tms)))


if __name__ == "__main__":
    if len(sys.argv) < 7 or sys.argv[4] not in CURVES:
        sys.exit(__doc__)
    try:
        main(*sys.argv[1:])
    except (sv.Unreadable, OSError, KeyError, ValueError) as error:
        sys.exit(f"curve: {error}")
