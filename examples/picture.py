#!/usr/bin/env python3
"""Draws what an engineer looks at of a replay, as an SVG: Python's standard library alone, outside what is proved.

    picture.py SETTINGS CAPTURE LOG FILE.svg [option ..]

    --line NAME           the line (the first one that the log names)
    --loop LOOP           the loop of the R-X plane: AG .. CA, or `positive` for the positive sequence with the blinders
                          (the first loop that came in)
    --window FROM TO      the sample numbers that are shown; more windows stand beside one another (all samples)
    --mark NUMBER=TEXT    a mark, as where a fault begins (without any: where currents or voltages change suddenly)
    --reach OHMS          how far the R-X plane goes (by the zones)

Above are the currents and voltages over time in ms from the settings' `start`, phase A drawn solid, B dashed, C dotted. Below
them are strips of what the log says: ready, swing, fuse, inside (hatched) and operate (black) of each zone and loop, trip.
The rings with numbers on the loop's path are where the log says that it comes in or goes out.
Beside them is the R-X plane with the zones' characteristics and the loop's path, a dot each eighth sample.
"""
import math
import sys

import plain_relay as rules
import sampled_values as sv

PHASES = (("A", "#000000", "none"), ("B", "#1a5fb4", "7 3"), ("C", "#b3261e", "2 2"))
LEFT, TOP, PANEL, GAP, STRIP = 84, 76, 170, 22, 17
WINDOW_WIDTH, PLANE = 620, 430
MOST_STRIPS, MOST_NAMED = 14, 12


def escaped(text):
    return text.replace("&", "&amp;").replace("<", "&lt;").replace(">", "&gt;")


def nice(value):
    """The least of 1, 2, 2.5, 5 times a power of ten that isn't below the value."""
    power = 1
    while power * 10 <= value:
        power *= 10
    return next(k * power / 10 for k in (10, 20, 25, 50, 100) if k * power / 10 >= value) if value > 1 else 1


class Drawing:
    """The lines of an SVG."""

    def __init__(self):
        self.out = []

    def line(self, x1, y1, x2, y2, colour="#000", width=1.0, dash="none"):
        self.out.append(f'<line x1="{x1:.1f}" y1="{y1:.1f}" x2="{x2:.1f}" y2="{y2:.1f}" stroke="{colour}" '
                        f'stroke-width="{width}" stroke-dasharray="{dash}"/>')

    def text(self, x, y, text, anchor="start", size=12, weight="normal"):
        self.out.append(f'<text x="{x:.1f}" y="{y:.1f}" text-anchor="{anchor}" font-size="{size}" '
                        f'font-weight="{weight}">{escaped(text)}</text>')

    def path(self, points, colour, width=1.4, dash="none", clip=""):
        if points:
            at = " ".join(f"{x:.1f},{y:.1f}" for x, y in points)
            self.out.append(f'<polyline points="{at}" fill="none" stroke="{colour}" stroke-width="{width}" '
                            f'stroke-dasharray="{dash}"{clip}/>')

    def box(self, x, y, width, height, fill="none", stroke="#888"):
        self.out.append(f'<rect x="{x:.1f}" y="{y:.1f}" width="{width:.1f}" height="{height:.1f}" fill="{fill}" '
                        f'stroke="{stroke}"/>')

    def dot(self, x, y, size, fill, clip=""):
        self.out.append(f'<circle cx="{x:.1f}" cy="{y:.1f}" r="{size}" fill="{fill}" stroke="#000"{clip}/>')


class Window:
    """A span of sample numbers with its place on the picture."""

    def __init__(self, first, last, left, width, rate):
        self.first, self.last, self.left, self.width, self.rate = first, last, left, width, rate

    def holds(self, number):
        return self.first <= number <= self.last

    def x(self, number):
        return self.left + self.width * (number - self.first) / max(self.last - self.first, 1)

    def milliseconds(self, number):
        return 1000 * number / self.rate


# ------------------------------------------------------------------------------------------------ over time


def axis(drawing, window, top, bottom):
    """Ticks in whole milliseconds."""
    span = window.milliseconds(window.last - window.first)
    step = int(nice(max(span / 8, 1)))
    tick = -(-window.milliseconds(window.first) // step) * step
    while tick <= window.milliseconds(window.last):
        x = window.x(tick * window.rate / 1000)
        drawing.line(x, top, x, bottom, "#ddd")
        drawing.text(x, bottom + 15, f"{tick:.0f}", "middle")
        tick += step
    drawing.text(window.left + window.width, bottom + 30, "ms from start", "end")


def unbroken(numbers):
    """Runs of numbers that follow one another."""
    runs = []
    for n in numbers:
        if runs and n == runs[-1][-1] + 1:
            runs[-1].append(n)
        else:
            runs.append([n])
    return runs


def curves(drawing, samples, window, top, channels, scale, unit):
    """Three phases. `scale` is counts a unit and the units at the top."""
    drawing.box(window.left, top, window.width, PANEL)
    y = lambda counts: top + PANEL / 2 * (1 - counts / scale[0] / scale[1])
    for mark in (-scale[1], 0, scale[1]):
        drawing.line(window.left - 4, y(mark * scale[0]), window.left, y(mark * scale[0]))
        drawing.text(window.left - 8, y(mark * scale[0]) + 4, f"{mark:g} {unit}", "end")
    drawing.line(window.left, y(0), window.left + window.width, y(0), "#bbb")
    numbers = [n for n in samples if window.holds(n)]
    step = max(1, len(numbers) // window.width)                 # a point a pixel is enough
    for (_, colour, dash), channel in zip(PHASES, channels):
        for piece in unbroken(numbers):                         # a gap stays open
            kept = piece[::step] + piece[-1:]
            drawing.path([(window.x(n), y(samples[n].values[channel])) for n in kept], colour, dash=dash)


def scale_of(samples, windows, channels, per_unit, units):
    """Counts a unit, the units at the top, and the unit's name: in thousands where they are large."""
    peak = max((abs(samples[n].values[c]) for n in samples if any(w.holds(n) for w in windows) for c in channels), default=0)
    counts, unit = (1000 * per_unit, "k" + units) if peak >= 500 * per_unit else (per_unit, units)
    return (counts, nice(peak / counts)), unit


def changes(line):
    """Numbers at which a signal differs by a tenth of its greatest value from a cycle before, and didn't in the cycle
    before that."""
    n_cycle, found, last = line.n, [], None
    samples = line.samples
    peaks = [max([abs(s.values[c]) for s in samples.values() for c in channels] + [1]) for channels in ((0, 1, 2), (3, 4, 5))]
    for n in samples:
        before = samples.get(n - n_cycle)
        if before and any(10 * abs(x - y) > peaks[k // 3] for k, (x, y) in enumerate(zip(samples[n].values, before.values))):
            if last is None or n - last > n_cycle:
                found.append((n, ""))
            last = n
    return found


def marks_on(drawing, window, marks, top, bottom):
    shown = [(n, text) for n, text in marks if window.holds(n)]
    for k, (n, text) in enumerate(shown):
        x = window.x(n)
        drawing.line(x, top - 6, x, bottom, "#000", 1.2, "5 3")
        right = x > window.left + 0.6 * window.width
        drawing.text(x + (-4 if right else 4), top - 10 - 14 * (k % 3),
                     f"{text}{', ' if text else ''}{window.milliseconds(n):.1f} ms", "end" if right else "start")


# ------------------------------------------------------------------------------------------------ strips


def strips_of(line, events, last):
    """Rows (name, spans), a span being (from, to, how) with `how` as inside or operate; to is the number that ends it."""
    open_at, spans = {}, {}

    def turn(row, how, number, on):
        if on and (row, how) not in open_at:
            open_at[row, how] = number
        elif not on and (row, how) in open_at:
            spans.setdefault(row, []).append((open_at.pop((row, how)), number, how))

    pairs = {"ready": ("ready", True), "lost": ("ready", False), "swing on": ("swing", True), "swing off": ("swing", False),
             "fuse on": ("fuse", True), "fuse off": ("fuse", False), "trip": ("trip", True), "reset": ("trip", False)}
    for event in events:
        if event.words in pairs:
            row, on = pairs[event.words]
            turn(row, "operate" if row == "trip" else "inside", event.number, on)
        elif event.is_zone:
            row = f"zone {event.zone + 1} {rules.LOOPS[event.lp]}"
            if event.what == "out":
                turn(row, "operate", event.number, False)
            turn(row, "operate" if event.what == "operate" else "inside", event.number, event.what != "out")
    for row, how in list(open_at):
        turn(row, how, last + 1, False)
    zones = sorted(row for row in spans if row.startswith("zone"))
    zones.sort(key=lambda row: (int(row.split()[1]), rules.LOOPS.index(row.split()[2])))
    if len(zones) > MOST_STRIPS:                                # too many: a row a zone, for any of its loops
        merged = {}
        for row in zones:
            merged.setdefault(" ".join(row.split()[:2]), []).extend(spans[row])
        spans.update(merged)
        zones = list(merged)
    return [(row, spans[row]) for row in ("ready", "swing", "fuse", *zones, "trip") if row in spans]


def strips(drawing, rows, window, top, with_names):
    for k, (name, spans) in enumerate(rows):
        y = top + k * STRIP
        if with_names:
            drawing.text(window.left - 8, y + 12, name, "end")
        drawing.line(window.left, y + STRIP, window.left + window.width, y + STRIP, "#ddd")
        for first, end, how in sorted(spans, key=lambda s: s[2] == "operate"):
            a, b = max(first, window.first), min(end, window.last)
            if a < b and how == "operate" and name != "trip":
                drawing.box(window.x(a), y + 9, window.x(b) - window.x(a), STRIP - 11, "#000", "#000")
            elif a < b:
                drawing.box(window.x(a), y + 3, window.x(b) - window.x(a), STRIP - 5,
                            "#000" if how == "operate" else "url(#hatch)", "#000")


# ------------------------------------------------------------------------------------------------ the R-X plane


def outline(part, reverse):
    """A characteristic as points in ohms."""
    sign = -1 if reverse else 1
    r, x = part["reach_r"] / 1000, part["reach_x"] / 1000
    if part["shape"] == "mho":
        radius = math.hypot(r, x) / 2
        return [(sign * (r / 2 + radius * math.cos(t * math.tau / 90)), sign * (x / 2 + radius * math.sin(t * math.tau / 90)))
                for t in range(91)]
    tilt, slope, back = part["tilt"] / 1000, part["slope"] / 1000, part["back_x"] / 1000

    def corner(side):
        """Where a side meets the top: X + tilt R = x, R - slope X = side."""
        top = (x - tilt * side) / (1 + tilt * slope)
        return side + slope * top, top
    points = [(-r - slope * back, -back), (r - slope * back, -back), corner(r), corner(-r)]
    return [(sign * a, sign * b) for a, b in [*points, points[0]]]


def path_of(line, windows, lp):
    """The impedance in ohms by number, of each ready sample with current."""
    found = {}
    for n, one in line.samples.items():
        if not one.ready or not any(w.holds(n) for w in windows):
            continue
        if lp is None:
            r, x, q = line.positive_impedance(one)
            z = (r / q, x / q) if q else None
        else:
            z = line.impedance(one, lp)
        if z is not None:
            found[n] = z[0] / 1000, z[1] / 1000
    return found


class Plane:
    """The R-X plane: a square of ohms on the picture."""

    def __init__(self, left, top, middle, half):
        self.left, self.top, self.middle, self.half = left, top, middle, half

    def at(self, r, x):
        return (self.left + PLANE / 2 * (1 + (r - self.middle[0]) / self.half),
                self.top + PLANE / 2 * (1 - (x - self.middle[1]) / self.half))

    def axes(self, drawing, loop):
        drawing.box(self.left, self.top, PLANE, PLANE)
        step = nice(max(1, self.half / 4 * 10)) / 10
        (r0, x0), half = self.middle, self.half
        for k in range(-40, 41):
            ohms = k * step
            if abs(ohms - r0) < half:
                a, b = self.at(ohms, x0 - half), self.at(ohms, x0 + half)
                drawing.line(*a, *b, "#bbb" if k == 0 else "#eee")
                drawing.text(a[0], a[1] + 15, f"{ohms:g}", "middle", 11)
            if abs(ohms - x0) < half:
                a, b = self.at(r0 - half, ohms), self.at(r0 + half, ohms)
                drawing.line(*a, *b, "#bbb" if k == 0 else "#eee")
                drawing.text(a[0] - 5, a[1] + 4, f"{ohms:g}", "end", 11)
        drawing.text(self.left + PLANE / 2, self.top + PLANE + 30, "R in ohms", "middle")
        drawing.text(self.left - 34, self.top - 8, "X in ohms")
        drawing.text(self.left + PLANE, self.top - 8, f"{loop}, primary", "end", 12, "bold")


def characteristics(drawing, plane, line, lp, clip):
    """The zones' outlines for the loop, each with its number; a loop without a part has none."""
    dashes = ("none", "9 4", "3 3", "12 3 3 3", "1 3")
    for z, zone in enumerate(line.line["zones"]):
        parts = [line.part(zone, lp)] if lp is not None else [zone.get("ground"), zone.get("phase")]
        for part in parts:
            if part is None:
                continue
            points = [plane.at(*p) for p in outline(part, zone["dir"] == "reverse")]
            drawing.path(points, "#2b6e2b", 1.6, dashes[z], clip)
        if parts[-1] is not None:
            x, y = max(points, key=lambda p: p[0] - p[1])
            drawing.text(min(x + 5, plane.left + PLANE - 4), max(y - 5, plane.top + 12), f"zone {z + 1}",
                         "start" if x + 50 < plane.left + PLANE else "end", 11)
    swing = line.line.get("swing")
    if lp is None and swing:
        for key, dash in (("outer", "2 2"), ("inner", "6 2")):
            r, x = swing[key + "_r"] / 1000, swing[key + "_x"] / 1000
            corners = [plane.at(a * r, b * x) for a, b in ((-1, -1), (1, -1), (1, 1), (-1, 1), (-1, -1))]
            drawing.path(corners, "#7a4a00", 1.2, dash, clip)
            drawing.text(corners[3][0] + 4, corners[3][1] + 13, f"{key} blinder", "start", 11)


def plane_of(drawing, line, windows, events, lp, left, reach):
    """The plane, wide enough for the zones."""
    points = [p for zone in line.line["zones"] for part in
              ([line.part(zone, lp)] if lp is not None else [zone.get("ground"), zone.get("phase")]) if part
              for p in outline(part, zone["dir"] == "reverse")]
    swing = line.line.get("swing")
    if lp is None and swing:
        points += [(a * swing["outer_r"] / 1000, a * swing["outer_x"] / 1000) for a in (-1, 1)]
    points = points or [(-10, -10), (10, 10)]
    lows, highs = [min(p[k] for p in points) for k in (0, 1)], [max(p[k] for p in points) for k in (0, 1)]
    half = reach or max(0.5, 0.72 * max(h - l for h, l in zip(highs, lows)))
    plane = Plane(left, TOP, [(h + l) / 2 for h, l in zip(highs, lows)], half)
    clip = ' clip-path="url(#plane)"'
    drawing.out.append(f'<clipPath id="plane"><rect x="{left}" y="{TOP}" width="{PLANE}" height="{PLANE}"/></clipPath>')
    plane.axes(drawing, "positive sequence" if lp is None else "loop " + rules.LOOPS[lp])
    characteristics(drawing, plane, line, lp, clip)
    path = path_of(line, windows, lp)
    for piece in unbroken(path):
        drawing.path([plane.at(*path[n]) for n in piece], "#000", 1, clip=clip)
    for n, z in path.items():
        if n % 8 == 0:
            drawing.dot(*plane.at(*z), 1.6, "#000", clip)
    numbered(drawing, plane, events, lp, path, windows[0])


def numbered(drawing, plane, events, lp, found, window):
    """A ring with a number where the path stands at an event of the loop, and below the plane what the numbers are."""
    named = {}
    for event in events:
        wanted = event.is_zone and event.lp == lp and event.what != "operate" or lp is None and event.words.startswith("swing")
        if wanted and event.number in found:
            words = event.words if lp is None else f"zone {event.zone + 1} {event.what}"
            named.setdefault(event.number, []).append(words)
    for k, (number, words) in enumerate(list(named.items())[:MOST_NAMED], 1):
        x, y = plane.at(*found[number])
        if plane.left < x < plane.left + PLANE and plane.top < y < plane.top + PLANE:
            drawing.dot(x, y, 4, "#fff")
            drawing.text(x + (-7 if k % 2 else 7), y - 5, str(k), "end" if k % 2 else "start", 12, "bold")
        column, row = divmod(k - 1, MOST_NAMED // 2)
        drawing.text(plane.left - 30 + column * PLANE // 2, plane.top + PLANE + 50 + 15 * row,
                     f"{k}  {', '.join(words)}, {window.milliseconds(number):.1f} ms", "start", 11)


# ------------------------------------------------------------------------------------------------ the picture


def legend(drawing, y):
    x = LEFT
    for name, colour, dash in PHASES:
        drawing.line(x, y - 4, x + 34, y - 4, colour, 2, dash)
        drawing.text(x + 40, y, "phase " + name)
        x += 112
    for fill, text in (("url(#hatch)", "stands, inside"), ("#000", "operates, trip")):
        drawing.box(x, y - 12, 24, 12, fill, "#000")
        drawing.text(x + 30, y, text)
        x += 150


def draw(line, events, options):
    """The whole picture as text."""
    samples = line.samples
    numbers = list(samples)
    bounds = options["window"] or [(numbers[0], numbers[-1])]
    width = WINDOW_WIDTH if len(bounds) == 1 else 430
    windows = [Window(*bound, LEFT + k * (width + LEFT), width, line.common.rate) for k, bound in enumerate(bounds)]
    marks = options["mark"] or changes(line)
    rows = [(name, spans) for name, spans in strips_of(line, events, numbers[-1])
            if any(a <= w.last and b > w.first for a, b, _ in spans for w in windows)]
    drawing = Drawing()
    u_top = TOP + PANEL + GAP
    s_top = u_top + PANEL + GAP
    bottom = s_top + len(rows) * STRIP
    amperes, a_unit = scale_of(samples, windows, (0, 1, 2), 1000, "A")
    volts, v_unit = scale_of(samples, windows, (3, 4, 5), 100, "V")
    for k, window in enumerate(windows):
        axis(drawing, window, TOP, bottom)
        curves(drawing, samples, window, TOP, (0, 1, 2), amperes, a_unit)
        curves(drawing, samples, window, u_top, (3, 4, 5), volts, v_unit)
        strips(drawing, rows, window, s_top, k == 0)
        marks_on(drawing, window, marks, TOP, bottom)
    left = windows[-1].left + width + LEFT
    loop = options["loop"] or next((rules.LOOPS[e.lp] for e in events if e.is_zone and e.what == "in"), "AG")
    plane_of(drawing, line, windows, events, None if loop == "positive" else rules.LOOPS.index(loop), left, options["reach"])
    total, height = left + PLANE + 30, max(bottom + 66, TOP + PLANE + 140)
    legend(drawing, bottom + 54)
    head = (f'<svg xmlns="http://www.w3.org/2000/svg" width="{total}" height="{height}" viewBox="0 0 {total} {height}" '
            'font-family="sans-serif">'
            '<defs><pattern id="hatch" width="5" height="5" patternUnits="userSpaceOnUse"><rect width="5" height="5" '
            'fill="#fff"/><path d="M0,5 L5,0" stroke="#000" stroke-width="1"/></pattern></defs>'
            f'<rect width="{total}" height="{height}" fill="#fff"/>')
    return "\n".join([head, *drawing.out, "</svg>"]) + "\n"


def options_of(words):
    found = {"line": None, "loop": None, "window": [], "mark": [], "reach": None}
    words = list(words)
    while words:
        name = words.pop(0)
        if name == "--window" and len(words) >= 2:
            found["window"].append((int(words.pop(0)), int(words.pop(0))))
        elif name == "--mark" and words and "=" in words[0]:
            number, text = words.pop(0).split("=", 1)
            found["mark"].append((int(number), text))
        elif name in ("--line", "--loop") and words:
            found[name[2:]] = words.pop(0)
        elif name == "--reach" and words:
            found["reach"] = float(words.pop(0))
        else:
            raise sv.Unreadable(f"no such option, or it lacks its value: {name}")
    if found["loop"] not in (None, "positive", *rules.LOOPS):
        raise sv.Unreadable(f"no such loop: {found['loop']}")
    return found


def main(settings_path, capture_path, log_path, target, *words):
    options = options_of(words)
    settings, events = rules.Settings(settings_path), rules.log_lines(log_path)
    named = settings.named(options["line"] or (events[0].name if events else None))
    with open(capture_path, "rb") as file:
        bodies, stop = sv.records(file.read())
    if stop:
        print(f"picture: {stop}; the records before are drawn", file=sys.stderr)
    line = rules.Line(settings, named, sv.heard(bodies))
    if not line.samples:
        raise sv.Unreadable(f"{capture_path}: no sample set of {named['sv_id']} in it is taken")
    own = [event for event in events if event.name == named["name"]]
    rules.expect_log_of(line, own)
    with open(target, "w", encoding="ascii") as file:
        file.write(draw(line, own, options))


if __name__ == "__main__":
    if len(sys.argv) < 5:
        sys.exit(__doc__)
    try:
        main(*sys.argv[1:])
    except (sv.Unreadable, OSError, KeyError, ValueError) as error:
        sys.exit(f"picture: {error}")
