#!/usr/bin/env python3
"""Draws a record after COMTRADE 1999 in its ASCII form, as an SVG: Python's standard library alone, outside what is proved.

    recorded.py CONFIG DATA FILE.svg

It knows nothing of the relay that wrote the pair: channels, units, factors and the trigger's moment are what CONFIG says
(IEEE C37.111-1999). Currents and voltages stand over the time behind the first sample, phase A solid, B dashed, C dotted;
below them is a strip for each status channel, black where it is 1. The upright line is the trigger.
"""
import datetime
import sys

from picture import GAP, PANEL, PHASES, STRIP, Drawing, nice

LEFT, TOP, WIDTH = 84, 44, 720
TO_BASE = {"mA": ("A", 0.001), "A": ("A", 1), "kA": ("A", 1000), "mV": ("V", 0.001), "V": ("V", 1), "kV": ("V", 1000)}


class Record:
    """The channels of a record, and its samples by their time in ms behind the first one."""

    def __init__(self, config, data):
        lines = [line.split(",") for line in config.split("\r\n")]
        self.station = lines[0][0]
        analogue, status = int(lines[1][1].rstrip("A")), int(lines[1][2].rstrip("D"))
        self.channels = lines[2:2 + analogue]
        self.states = [line[1] for line in lines[2 + analogue:2 + analogue + status]]
        rest = lines[2 + analogue + status:]
        rates = int(rest[1][0])
        first, trigger, form, factor = rest[2 + rates:6 + rates]
        if form != ["ASCII"]:
            raise ValueError("its data aren't in the ASCII form")
        self.trigger = (moment(trigger) - moment(first)) / datetime.timedelta(milliseconds=1)
        rows = [line.split(",") for line in data.rstrip("\x1a").split("\r\n") if line]
        self.times = [int(row[1]) * float(factor[0]) / 1000 for row in rows]
        self.values = [[float(row[2 + k]) * float(channel[5]) + float(channel[6]) for row in rows]
                       for k, channel in enumerate(self.channels)]
        self.bits = [[row[2 + analogue + k] == "1" for row in rows] for k in range(status)]

    def of(self, quantity):
        """Phase and values of the channels of a quantity, `A` or `V`, in that unit."""
        found = []
        for channel, values in zip(self.channels, self.values):
            unit, factor = TO_BASE.get(channel[4], ("", 1))
            if unit == quantity:
                found.append((channel[2], [value * factor for value in values]))
        return found


def moment(words):
    return datetime.datetime.strptime(",".join(words), "%d/%m/%Y,%H:%M:%S.%f")


def x(record, time):
    return LEFT + WIDTH * time / (record.times[-1] or 1)


def curves(drawing, record, top, quantity):
    """The phases of a quantity, in units of a thousand where it is large."""
    phases = record.of(quantity)
    most = max((abs(value) for _, values in phases for value in values), default=0)
    large, scale = ("k", 1000) if most >= 1000 else ("", 1)
    span = nice(most / scale or 1)
    drawing.box(LEFT, top, WIDTH, PANEL)
    for mark in (-span, 0, span):
        y = top + PANEL / 2 * (1 - mark / span)
        drawing.line(LEFT - 4, y, LEFT + (WIDTH if mark == 0 else 0), y, "#bbb")
        drawing.text(LEFT - 8, y + 4, f"{mark:g} {large}{quantity}", "end")
    for phase, colour, dash in PHASES:
        for name, values in phases:
            if name == phase:
                points = [(x(record, time), top + PANEL / 2 * (1 - value / scale / span)) for time, value in zip(record.times, values)]
                drawing.path(points, colour, dash=dash)


def strip(drawing, record, top, k):
    """Where a status channel is 1."""
    drawing.text(LEFT - 8, top + STRIP - 5, record.states[k], "end")
    since = None
    for time, bit in [*zip(record.times, record.bits[k]), (record.times[-1], False)]:
        if bit and since is None:
            since = time
        elif not bit and since is not None:
            drawing.box(x(record, since), top + 2, x(record, time) - x(record, since), STRIP - 5, "#000")
            since = None


def draw(record):
    drawing = Drawing()
    drawing.text(LEFT, 22, f"{record.station}: {len(record.times)} samples; the upright line is the trigger", weight="bold")
    strips = TOP + 2 * (PANEL + GAP)
    bottom = strips + STRIP * len(record.states)
    step = nice(record.times[-1] / 8)
    for k in range(int(record.times[-1] / step) + 1):
        drawing.line(x(record, k * step), TOP, x(record, k * step), bottom, "#ddd")
        drawing.text(x(record, k * step), bottom + 16, f"{k * step:g}", "middle", 11)
    drawing.text(LEFT + WIDTH, bottom + 32, "ms behind the first sample", "end", 11)
    curves(drawing, record, TOP, "A")
    curves(drawing, record, TOP + PANEL + GAP, "V")
    for k in range(len(record.states)):
        strip(drawing, record, strips + STRIP * k, k)
    drawing.line(x(record, record.trigger), TOP, x(record, record.trigger), bottom, "#b3261e", 1.4)
    size = LEFT + WIDTH + 30, bottom + 46
    return (f'<svg xmlns="http://www.w3.org/2000/svg" width="{size[0]}" height="{size[1]}" font-family="sans-serif">\n'
            '<rect width="100%" height="100%" fill="#fff"/>\n' + "\n".join(drawing.out) + "\n</svg>\n")


def main(config_path, data_path, target):
    texts = []
    for path in (config_path, data_path):
        with open(path, encoding="ascii", newline="") as file:
            texts.append(file.read())
    with open(target, "w", encoding="ascii") as file:
        file.write(draw(Record(*texts)))


if __name__ == "__main__":
    if len(sys.argv) != 4:
        sys.exit(__doc__)
    try:
        main(*sys.argv[1:])
    except (OSError, ValueError, IndexError) as error:
        sys.exit(f"recorded: {error}")
