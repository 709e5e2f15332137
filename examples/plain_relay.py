"""The rules of the relay for one line, in plain whole numbers: Python's standard library alone.

Outside what is proved: written apart from the program, for `explain.py` and `picture.py`, which show why a zone picked up
or didn't. docs/DEFINITIONS.md has the rules that the program is proved against. Nothing here is a float, so each
comparison is exact; what is printed is rounded down.

A phasor is a pair (re, im). A number is a sample's number: the counter, running on over the ends of seconds.
"""
import bisect
import datetime
import math
import tomllib
from collections import deque

import sampled_values as sv

LOOPS = ("AG", "BG", "CG", "AB", "BC", "CA")
MOST = 2 ** 28 - 1                              # the greatest size of a good value
QUARTERS = {
    96: (0, 1072, 2139, 3196, 4240, 5266, 6270, 7246, 8192, 9102, 9974, 10803, 11585, 12318, 12998, 13623, 14189, 14694,
         15137, 15515, 15826, 16069, 16244, 16349, 16384),
    80: (0, 1285, 2563, 3825, 5063, 6270, 7438, 8561, 9630, 10641, 11585, 12458, 13255, 13970, 14598, 15137, 15582, 15931,
         16182, 16333, 16384),
}
PAIRS = {(4800, 50): 96, (4800, 60): 80, (4000, 50): 80}        # samples a cycle by rate and nominal frequency


def sine_table(n):
    """The sines of a cycle of n samples, scale 16384, from the first quarter's."""
    quarter = QUARTERS[n]
    half = quarter + quarter[-2:0:-1]
    return half + tuple(-s for s in half)


# ------------------------------------------------------------------------------------------------ phasors


def plus(a, b):
    return a[0] + b[0], a[1] + b[1]


def minus(a, b):
    return a[0] - b[0], a[1] - b[1]


def scaled(k, a):
    return k * a[0], k * a[1]


def times(a, b):
    return a[0] * b[0] - a[1] * b[1], a[0] * b[1] + a[1] * b[0]


def times_conjugate(a, b):
    return a[0] * b[0] + a[1] * b[1], a[1] * b[0] - a[0] * b[1]


def square(a):
    return a[0] * a[0] + a[1] * a[1]


def turned(x):
    """Turned forward by a third of a circle, rounded down."""
    return (-8192 * x[0] - 14189 * x[1]) // 16384, (14189 * x[0] - 8192 * x[1]) // 16384


def turned_back(x):
    return (-8192 * x[0] + 14189 * x[1]) // 16384, (-14189 * x[0] - 8192 * x[1]) // 16384


def sequences(a, b, c):
    """Three times the zero, positive and negative sequence."""
    return (plus(plus(a, b), c), plus(plus(a, turned(b)), turned_back(c)), plus(plus(a, turned_back(b)), turned(c)))


# ------------------------------------------------------------------------------------------------ settings


class Settings:
    """A settings file of either version, as far as the rules need it. The program's `check` is the judge of a file; here
    it's taken to be accepted."""

    def __init__(self, path):
        with open(path, "rb") as file:
            top = tomllib.load(file)
        self.rate, self.nominal = top["rate"], top["nominal"]
        self.n, self.heartbeat_ms = PAIRS[self.rate, self.nominal], top["heartbeat_ms"]
        start = datetime.datetime.strptime(top["start"], "%Y-%m-%dT%H:%M:%S%z")
        self.start = int(start.timestamp())
        self.lines = [self.line(top["version"], one) for one in top["line"]]

    @staticmethod
    def line(version, table):
        line = {"quality_mask": 3, "synch_min": 0, **table}
        line["zones"] = [zone if version == 2 else
                         {**zone, "ground": zone, "phase": zone} for zone in table.get("zone", [])]
        return line

    def samples(self, ms):
        """A time in samples, rounded up."""
        return -(-ms * self.rate // 1000)

    def named(self, name):
        for line in self.lines:
            if name in (None, line["name"]):
                return line
        raise sv.Unreadable(f"the settings have no line {name}; they have {', '.join(l['name'] for l in self.lines)}")


# ------------------------------------------------------------------------------------------------ one line


class Sample:
    """A taken sample: its number, its six used values, and whether it's good. Where it's ready it has what is formed of
    the last cycle: phasors of the phases, sequences, the polarising voltage, swing and fuse."""

    def __init__(self, number, values, good):
        self.number, self.values, self.good = number, values, good
        self.ready = False
        self.pol, self.pol_age, self.swing, self.fuse = None, 0, False, False


class Line:
    """All taken samples of one line of a capture, by number; and what became of each of its own sample sets, in their
    order, as (words, whether it's taken, the last taken number by then)."""

    def __init__(self, settings, line, sets):
        self.common, self.line, self.n = settings, line, settings.n
        self.sine = sine_table(self.n)
        self.cosine = self.sine[self.n // 4:] + self.sine[:self.n // 4]
        self.samples, self.outcomes = {}, []
        own = line["sv_id"].encode("ascii")
        last = None
        for one in sets:
            if one.sv_id == own:
                words, number = self.outcome(one, last)
                if number is not None:
                    self.take(one, number)
                    last = number
                self.outcomes.append((words, number is not None, last))
        self.numbers = list(self.samples)
        self.measure()

    def before(self, number):
        """The taken sample before this one, where there is one."""
        place = bisect.bisect_left(self.numbers, number)
        return self.samples[self.numbers[place - 1]] if place else None

    def outcome(self, one, last):
        """What the log says of a sample set, and its number where it's taken. A counter counts on from the last one, unless
        the set repeats it or comes up to 64 behind."""
        rate = self.common.rate
        if one.conf_rev != self.line["conf_rev"]:
            return f"confrev {one.conf_rev}", None
        if len(one.data) != 64:
            return f"length {len(one.data)}", None
        if one.counter >= rate:
            return f"wild {one.counter}", None
        if last is None:
            return "first", one.counter
        ahead = (one.counter - last) % rate
        if ahead == 0:
            return f"repeat {one.counter}", None
        if ahead >= rate - 64:
            return f"late {one.counter} by {rate - ahead}", None
        return f"jump {ahead - 1}" if ahead > 1 else None, last + ahead

    def take(self, one, number):
        used = [one.channels()[k] for k in sv.USED]
        good = one.synch >= self.line["synch_min"] and all(
            not word & self.line["quality_mask"] and abs(value) <= MOST for value, word in used)
        self.samples[number] = Sample(number, [value for value, _ in used], good)

    def measure(self):
        """Goes through the samples once. The sums slide, which gives what the sums of each last cycle formed anew do."""
        n, mimic = self.n, self.line.get("mimic")
        window, sums, before = deque(), [[0, 0] for _ in range(6)], None
        lows, history = 0, deque(maxlen=self.common.samples(self.line["mem_ms"]) + n + 1)
        between = declared_for = 0                       # a swing's run; samples since it was declared, plus one
        suspect_age = None
        for number in self.numbers:
            one = self.samples[number]
            joined = before is not None and before.number == number - 1 and before.good
            if not (one.good and joined):
                window.clear()
                sums = [[0, 0] for _ in range(6)]
            if one.good and (not mimic or joined):
                values = self.filtered(mimic, one, before) if mimic else one.values
                window.append((number % n, values))
                self.slide(sums, number % n, values, 1)
                if len(window) > n:
                    self.slide(sums, *window.popleft(), -1)
            before = one
            if len(window) < n:
                lows, between, declared_for, suspect_age = 0, 0, 0, None
                history.clear()
                continue
            one.ready = True
            one.phasors = [(re // 2 ** 19, im // 2 ** 19) for re, im in sums]
            one.i, one.u = one.phasors[:3], one.phasors[3:]
            one.i0, one.i1, one.i2 = sequences(*one.i)
            one.u0, one.u1, one.u2 = sequences(*one.u)
            lows, one.pol, one.pol_age = self.polarise(one, history, lows)
            between, declared_for, one.swing = self.swing_of(one, between, declared_for)
            suspect_age, one.fuse = self.fuse_of(one, suspect_age)

    @staticmethod
    def filtered(mimic, one, before):
        return [max(-MOST, min(MOST, (mimic["a"] * x - mimic["b"] * y) // 1024)) for x, y in zip(one.values, before.values)]

    def slide(self, sums, place, values, sign):
        c, s = sign * self.cosine[place], sign * self.sine[place]
        for total, value in zip(sums, values):
            total[0] += value * c
            total[1] -= value * s

    def at_least(self, p, counts):
        """At least so many counts rms."""
        return 2048 * square(p) >= self.n ** 2 * counts ** 2

    def rms(self, p):
        """Counts rms of a phasor, rounded down."""
        return math.isqrt(2048 * square(p)) // self.n

    def polarise(self, one, history, lows):
        """The positive sequence voltage, or for `mem_ms` that of one cycle before it sank. `history` has the last ready
        samples, the newest last."""
        low = not self.at_least(one.u1, self.line["mem_u"])
        lows = lows + 1 if low else 0
        history.append((one.u1, low))
        if not low:
            return 0, one.u1, 0
        if lows <= self.common.samples(self.line["mem_ms"]) and len(history) > lows + self.n:
            u1, was_low = history[-1 - lows - self.n]
            if not was_low:
                return lows, u1, lows + self.n
        return lows, None, 0

    def swing_of(self, one, between, declared_for):
        table = self.line.get("swing")
        if not table:
            return 0, 0, False
        place = self.swing_place(one)
        between = between + 1 if place == "between" else 0
        if place == "outside":
            return 0, 0, False
        if declared_for:
            declared_for += 1
        elif between >= self.common.samples(table["pass_ms"]):
            declared_for = 1
        unbalanced = 10 ** 6 * square(one.i2) >= table["i2_share"] ** 2 * square(one.i1)
        return between, declared_for, 0 < declared_for <= self.common.samples(table["max_ms"]) and not unbalanced

    @staticmethod
    def positive_impedance(one):
        """Resistance and reactance of the positive sequence in milliohms, each times the square of the current, which is
        the third."""
        r, x = times_conjugate(scaled(10000, one.u1), one.i1)
        return r, x, square(one.i1)

    def swing_place(self, one):
        table = self.line["swing"]
        r, x, q = self.positive_impedance(one)
        for place, r_key, x_key in (("inner", "inner_r", "inner_x"), ("between", "outer_r", "outer_x")):
            if q > 0 and abs(r) <= table[r_key] * q and abs(x) <= table[x_key] * q:
                return place
        return "outside"

    def fuse_of(self, one, age):
        """`age` is that of the newest suspect sample in the unbroken run, 0 for this one."""
        table = self.line.get("fuse")
        if not table:
            return None, False
        small_i2 = not self.at_least(one.i2, table["i2_max"])
        age = 0 if small_i2 and self.at_least(one.u2, table["u2_min"]) else None if age is None else age + 1
        return age, small_i2 and age is not None and age < self.common.samples(table["hold_ms"])

    # -------------------------------------------------------------------------------------------- loops and zones

    def loop(self, one, lp):
        """Voltage and current of a loop. The current is in thousandths of a count: 1000 times the difference of the
        phases, or 1000 times the phase plus k0 times the residual current."""
        if lp < 3:
            k0 = self.line["k0_re"], self.line["k0_im"]
            return one.u[lp], plus(scaled(1000, one.i[lp]), times(k0, one.i0))
        a, b = lp - 3, (lp - 2) % 3
        return minus(one.u[a], one.u[b]), scaled(1000, minus(one.i[a], one.i[b]))

    def polarising(self, one, lp):
        p = one.pol
        if p is None:
            return None
        if lp < 3:
            return (p, turned_back(p), turned(p))[lp]
        phases = (p, turned_back(p), turned(p))
        return minus(phases[lp - 3], phases[(lp - 2) % 3])

    def impedance(self, one, lp):
        """Resistance and reactance that the loop measures, in milliohms, rounded down; none without current."""
        u, i = self.loop(one, lp)
        q = square(i)
        if q == 0:
            return None
        r, x = times_conjugate(scaled(10 ** 7, u), i)
        return r // q, x // q

    def part(self, zone, lp):
        return zone.get("ground" if lp < 3 else "phase")

    def mho_value(self, one, zone, lp):
        """What a circle compares with 0, in thousandths of the product of the two sizes; none without a polarising
        voltage."""
        part, p = self.part(zone, lp), self.polarising(one, lp)
        if p is None:
            return None
        u, i = self.loop(one, lp)
        if zone["dir"] == "reverse":
            i = scaled(-1, i)
        operating = minus(times((part["reach_r"], part["reach_x"]), i), scaled(10 ** 7, u))
        value = times_conjugate(operating, p)[0]
        size = math.isqrt(square(operating) * square(p))
        return value, 1000 * value // size if size else 0

    def quad_values(self, one, zone, lp):
        """R - slope X and X + tilt R in milliohms, X, and the same times the square of the current as (A, B, Q)."""
        u, i = self.loop(one, lp)
        if zone["dir"] == "reverse":
            i = scaled(-1, i)
        a, b = times_conjugate(scaled(10 ** 7, u), i)
        return a, b, square(i)

    def has_shape(self, one, zone, lp):
        part = self.part(zone, lp)
        if part is None:
            return False
        if part["shape"] == "mho":
            value = self.mho_value(one, zone, lp)
            return value is not None and value[0] > 0
        a, b, q = self.quad_values(one, zone, lp)
        leaning = 1000 * a - part["slope"] * b
        return (q > 0 and 1000 * b + part["tilt"] * a <= 1000 * part["reach_x"] * q
                and abs(leaning) <= 1000 * part["reach_r"] * q and b >= -part["back_x"] * q)

    def direction(self, one, lp):
        """Forward, reverse or neither, and what told it."""
        zl = self.line["line_r"], self.line["line_x"]
        if lp < 3 and self.at_least(one.i2, self.line["dir_i2"]):
            torque, by = -times_conjugate(one.u2, times(zl, one.i2))[0], "3U2 against 3I2"
        elif one.pol is None:
            return "neither", "no polarising voltage"
        else:
            torque, by = times_conjugate(times(zl, self.loop(one, lp)[1]), self.polarising(one, lp))[0], "the polarising voltage"
        return "forward" if torque > 0 else "reverse" if torque < 0 else "neither", by

    def has_direction(self, one, zone, lp):
        return zone["dir"] == "none" or self.direction(one, lp)[0] == zone["dir"]

    def has_current(self, one, lp):
        if lp < 3:
            return self.at_least(one.i[lp], self.line["i_min"]) and self.at_least(one.i0, self.line["i0_min"])
        return self.at_least(minus(one.i[lp - 3], one.i[(lp - 2) % 3]), self.line["i_min"])

    def is_load(self, one):
        table = self.line.get("load")
        if not table:
            return False
        r, x, q = self.positive_impedance(one)
        return q > 0 and abs(r) >= table["r"] * q and 1000 * abs(x) <= table["slope"] * abs(r)

    def is_inside(self, one, zone, lp):
        return (one.ready and self.part(zone, lp) is not None and self.has_current(one, lp)
                and self.has_direction(one, zone, lp) and self.has_shape(one, zone, lp) and not one.fuse
                and not (zone["swing_block"] and one.swing)
                and not (zone["load_block"] and lp >= 3 and self.is_load(one)))

    def is_inside_at(self, number, zone, lp):
        one = self.samples.get(number)
        return one is not None and self.is_inside(one, zone, lp)

    def operates_at(self, number, zone, lp):
        """Inside at this number and at as many before it as the delay has."""
        part = self.part(zone, lp)
        delay = self.common.samples(part["delay_ms"]) if part else 0
        return all(self.is_inside_at(n, zone, lp) for n in range(number, number - delay - 1, -1))

    def is_dead(self, number):
        """Ready, with three currents below `open_i`."""
        one = self.samples.get(number)
        return one is not None and one.ready and not any(self.at_least(i, self.line["open_i"]) for i in one.i)


# ------------------------------------------------------------------------------------------------ the log


class LogLine:
    """A line of the log that has a number: NAME TIME NUMBER WORDS."""

    def __init__(self, text):
        self.text = text
        self.name, self.time, number, self.words = text.split(" ", 3)
        self.number = int(number)
        words = self.words.split(" ")
        self.is_zone = words[0] == "zone" and len(words) == 4
        if self.is_zone:
            self.zone, self.lp, self.what = int(words[1]) - 1, LOOPS.index(words[2]), words[3]


def log_lines(path):
    """The lines of a log that carry a number; lines of frames, and of sample sets before the first, are passed over."""
    found = []
    with open(path, encoding="ascii") as file:
        for k, text in enumerate(file, 1):
            text = text.rstrip("\n")
            parts = text.split(" ", 3)
            if len(parts) < 4 or not (parts[0] == "frame" or parts[2] == "-" or parts[2].isdecimal()):
                raise sv.Unreadable(f"{path}: line {k} is no line of a log: {text[:60]}")
            if parts[0] != "frame" and parts[2] != "-":
                found.append(LogLine(text))
    return found


def expect_log_of(line, events):
    """Raises `Unreadable` where a line's log can't be of its samples: each number has to be taken, the first one where the
    log says so, and ready or lost as it says."""
    for event in events:
        one = line.samples.get(event.number)
        says = {"first": event.number == (line.numbers or [None])[0], "ready": one and one.ready, "lost": one and not one.ready}
        if one is None or not says.get(event.words, True):
            raise sv.Unreadable(f"the log isn't of this capture and these settings: {event.text}")
