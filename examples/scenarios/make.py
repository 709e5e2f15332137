#!/usr/bin/env python3
"""Makes the settings and the capture of every scenario: Python's standard library alone.

    make.py                          writes NAME/settings.toml and NAME/capture.pcap of each, beside this script
    make.py NAME ...                 of these alone
    make.py --to FOLDER [NAME ...]   below another folder

README.md has what each scenario shows. Captures are made when they are needed and not stored; captures.sha256 has their
sums. Read this from the top: phasors of a small grid, then signals over time, then streams of sample sets, then the
settings texts, and at last one function for each scenario. Everything is primary: volts, amperes and ohms here, and mA,
10 mV counts and milliohms in the files.
"""
import cmath
import datetime
import math
import os
import struct
import sys

HERE = os.path.dirname(os.path.abspath(__file__))
sys.path.insert(0, os.path.dirname(HERE))

import sampled_values as sv
from plain_relay import sine_table
from sampled_values import (BIG_MICRO, BIG_NANO, DERIVED, IA, IB, IC, IN, LITTLE_MICRO, LITTLE_NANO, UA, UB, UC, UN, asdu,
                            block, data, frame)

# ------------------------------------------------------------------------------------------------ phasors and the grid

TURN = cmath.rect(1, math.tau / 3)           # the operator a, a turn by 120 degrees
PHASES = "ABC"


def polar(size, degrees):
    return cmath.rect(size, math.radians(degrees))


def phases_of(zero, plus, minus):
    """The three phases of symmetrical components."""
    return (zero + plus + minus,
            zero + plus / TURN + minus * TURN,
            zero + plus * TURN + minus / TURN)


def balanced(x):
    return phases_of(0, x, 0)


NO_CURRENT = (0, 0, 0)


class Grid:
    """Near source, relay, line, far source, all in a row. An impedance is a pair: positive and zero sequence, in
    ohms.

    The relay measures the voltage at the line's near end and the current into the line. A six is the list of the
    rms phasors IA, IB, IC, UA, UB, UC. `degrees` is the angle by which the near source leads the far one; it makes
    the load.
    """

    def __init__(self, kv, near, line, far):
        self.volts = kv * 1000 / math.sqrt(3)
        self.near, self.line, self.far = near, line, far

    def sources(self, degrees):
        return polar(self.volts, degrees), complex(self.volts)

    def load(self, degrees):
        near, far = self.sources(degrees)
        i = (near - far) / (self.near[0] + self.line[0] + self.far[0])
        return (*balanced(i), *balanced(near - i * self.near[0]))

    def open(self, degrees=0):
        """The breaker is open, the voltage transformers are on the busbar."""
        return (*NO_CURRENT, *balanced(self.sources(degrees)[0]))

    def fault(self, kind, place, degrees=0, ohms=0.0):
        """A fault AG, BG, CG, AB, BC, CA, ABG, BCG, CAG or ABC at `place`, told in lengths of the line: 0 is the
        busbar, 1 the far end, and less than 0 lies behind the relay."""
        e_near, e_far = self.sources(degrees)
        left = [s + place * z for s, z in zip(self.near, self.line)]
        right = [(1 - place) * z + s for z, s in zip(self.line, self.far)]
        load = (e_near - e_far) / (left[0] + right[0])
        both = [a * b / (a + b) for a, b in zip(left, right)]
        i_fault = sequence_of_fault(kind, e_near - load * left[0], both[0], both[1], ohms)
        share = [(b if place >= 0 else -a) / (a + b) for a, b in zip(left, right)]
        zero, plus, minus = share[1] * i_fault[0], load + share[0] * i_fault[1], share[0] * i_fault[2]
        if place >= 0:
            z1, z0 = self.near
            u = (-z0 * zero, e_near - z1 * plus, -z1 * minus)
        else:
            z1, z0 = (a + b for a, b in zip(self.line, self.far))
            u = (z0 * zero, e_far + z1 * plus, z1 * minus)
        return (*phases_of(zero, plus, minus), *phases_of(*u))

    def k0(self):
        """(Z0 - Z1) / 3 Z1 in thousandths"""
        z1, z0 = self.line
        k = 1000 * (z0 - z1) / (3 * z1)
        return round(k.real), round(k.imag)


def sequence_of_fault(kind, u, z1, z0, ohms):
    """Zero, positive and negative-sequence current into the fault, for the voltage u before it (Phadke and Thorp)."""
    if kind == "ABC":
        return 0, u / (z1 + ohms), 0
    if len(kind) == 2 and kind[1] == "G":
        odd = PHASES.index(kind[0])                          # the phase that isn't like the other two
        plus = minus = zero = u / (2 * z1 + z0 + 3 * ohms)
    else:
        odd = next(k for k in range(3) if PHASES[k] not in kind)
        if kind.endswith("G"):
            z0 = z0 + 3 * ohms
            plus = u / (z1 + z1 * z0 / (z1 + z0))
            minus, zero = -plus * z0 / (z1 + z0), -plus * z1 / (z1 + z0)
        else:
            plus = u / (2 * z1 + ohms)
            minus, zero = -plus, 0
    return zero / TURN ** odd, plus, minus * TURN ** odd     # seen from phase A


GRID_110 = Grid(110, near=(0.8 + 8j, 1 + 9j), line=(3.6 + 12j, 9 + 36j), far=(1.2 + 14j, 2 + 18j))
GRID_220 = Grid(220, near=(0.6 + 12j, 1 + 14j), line=(5.6 + 33.6j, 18 + 100j), far=(1.5 + 20j, 2.5 + 26j))
GRID_400 = Grid(400, near=(1 + 20j, 1.5 + 18j), line=(4.5 + 48j, 27 + 140j), far=(1.5 + 28j, 2 + 30j))

# ------------------------------------------------------------------------------------------------ signals over time


def ramp(*points):
    """A broken line through points (ms, value); before the first and behind the last it stays."""
    def at(t):
        ms = 1000 * t
        if ms <= points[0][0]:
            return points[0][1]
        for (m0, v0), (m1, v1) in zip(points, points[1:]):
            if ms <= m1:
                return v0 + (v1 - v0) * (ms - m0) / (m1 - m0)
        return points[-1][1]
    return at


def momentary(six, hz, t):
    """The values at the time t in s; six may be a function of the time that moves slowly against the cycle."""
    turn = math.sqrt(2) * cmath.exp(1j * math.tau * hz * t)
    return [(p * turn).real for p in (six(t) if callable(six) else six)]


def wave(hz, *pieces):
    """A signal from pieces (ms, six) or (ms, six, tau). Each holds from its time on. With tau in ms the currents
    run on without a step: a direct current makes up the difference at the piece's start and decays with tau."""
    built = []

    def at(t):
        start, six, tau, extra = [p for p in built if p[0] <= t + 1e-9][-1]
        values = momentary(six, hz, t)
        for k in range(3):
            values[k] += extra[k] * math.exp(-(t - start) / tau) if tau else 0
        return values

    for ms, six, *tau in pieces:
        start, extra = ms / 1000, (0, 0, 0)
        if tau:
            extra = [a - b for a, b in zip(at(start), momentary(six, hz, start))]
        built.append((start, six, tau[0] / 1000 if tau else 0, extra))
    return at


def counts(values):
    """IA, IB, IC in mA and UA, UB, UC in counts of 10 mV"""
    return [round(1000 * v) for v in values[:3]] + [round(100 * v) for v in values[3:]]

# ------------------------------------------------------------------------------------------------ streams


INVALID, QUESTIONABLE, FAILURE, INACCURATE, TEST = 1, 3, 0x40, 0x200, 0x800      # bits of the quality word


def sample_sets(sv_id, signal, rate, first, last, missing=(), quality={}, synch={}, change={}, extra=()):
    """The sample sets of one merging unit with the numbers first to last, as (number, bytes).

    `signal` gives six values at a time in s. `missing` are numbers that never came. `quality`, `synch` and `change`
    tell by number what is special: {number: {channel: word}}, {number: byte}, {number: function of the six counts}.
    """
    out = []
    for n in range(first, last + 1):
        if n not in missing:
            six = counts(signal(n / rate))
            six = change[n](six) if n in change else six
            samples = data(six, quality.get(n, {}))
            out.append((n, asdu(sv_id, n % rate, samples, synch=synch.get(n, 2), extra=extra)))
    return out


def framed(sets, most, **keys):
    """Frames of at most so many sample sets, as (number of the first set, bytes)."""
    return [(sets[k][0], frame([b for _, b in sets[k:k + most]], **keys)) for k in range(0, len(sets), most)]


def stream(sv_id, signal, rate, first, last, sets=2, **keys):
    """The frames of one merging unit."""
    return framed(sample_sets(sv_id, signal, rate, first, last, **keys), sets)


def together(*streams):
    """Frames of several units in the order of their numbers; of equal numbers the earlier unit's frame comes first."""
    return sorted((f for s in streams for f in s), key=lambda f: f[0])

def pcap(frames, start, rate, magic=LITTLE_MICRO):
    """A pcap file; each record carries the time of its first sample set, counted from the settings' start."""
    return sv.pcap(frames, seconds(start), rate, magic)


def seconds(start):
    """Seconds since 1970 of a text such as 2024-05-14T06:00:00Z"""
    return int(datetime.datetime.strptime(start, "%Y-%m-%dT%H:%M:%S%z").timestamp())

# ------------------------------------------------------------------------------------------------ settings texts


START = "2024-05-14T06:00:00Z"

NOTES = {
    "start": "time of sample number 0",
    "rate": "sample sets a second",
    "nominal": "Hz",
    "heartbeat_ms": "longest pause between two GOOSE frames",
    "quality_mask": "quality bits that make a sample bad",
    "synch_min": "least smpSynch of a good sample",
    "line_r": "milliohms: positive-sequence impedance of the line",
    "k0_re": "thousandths: (Z0 - Z1) / 3 Z1",
    "i_min": "mA rms: a loop below it isn't looked at",
    "i0_min": "mA rms of 3I0: the same for ground loops",
    "dir_i2": "mA rms of 3I2: from here on ground loops take the negative-sequence direction",
    "mem_u": "10 mV rms of 3U1: below it the memory polarises",
    "mem_ms": "how long it does",
    "trip_min_ms": "a trip stands at least so long",
    "open_i": "mA rms: the pole counts as open below it",
    "open_ms": "and the line as dead after so long",
    "outer_r": "milliohms: blinders of the positive-sequence impedance",
    "pass_ms": "between the blinders for so long is a swing",
    "max_ms": "a swing blocks no longer",
    "i2_share": "thousandths of 3I1: from here on the line is unbalanced",
    "u2_min": "10 mV rms of 3U2",
    "i2_max": "mA rms of 3I2",
    "hold_ms": "the block holds on for so long",
    "r": "milliohms: load region",
    "slope_load": "thousandths: |X| up to this share of |R|",
    "a": "the filter is (a x(n) - b x(n - 1)) / 1024",
    "reach_r": "milliohms",
    "back_x": "milliohms behind the relay",
    "tilt": "thousandths: the reactance line falls with R",
    "slope": "thousandths: the resistance lines lean with X",
}


def written(v):
    if isinstance(v, bool):
        return str(v).lower()
    if isinstance(v, str):
        return '"%s"' % v
    return "%d" % v if abs(v) < 10000 else format(v, "_")


def keys(table, notes=True, load=False):
    lines = []
    for key, value in table.items():
        text = "%s = %s" % (key, "0x%X" % value if key == "quality_mask" else written(value))
        note = NOTES.get("slope_load" if load and key == "slope" else key) if notes else None
        lines.append(text if note is None else "%-31s# %s" % (text, note))
    return lines


def milliohms(z):
    return {"reach_r": round(1000 * z.real), "reach_x": round(1000 * z.imag)}


def mho(z):
    return {"shape": "mho", **milliohms(z)}


def quad(z, back=0.0, tilt=0, slope=0):
    return {"shape": "quad", **milliohms(z), "tilt": tilt, "slope": slope, "back_x": round(1000 * back)}


def zone(note, shape, direction, delay_ms, trip=True, swing_block=False, load_block=False):
    """A zone for all six loops."""
    return {"note": note, "keys": {"shape": shape["shape"], "dir": direction, **shape, "delay_ms": delay_ms, "trip": trip,
                                   "swing_block": swing_block, "load_block": load_block}}


def zone_of_parts(note, direction, ground=None, phase=None, trip=True, swing_block=False, load_block=False):
    """A zone with a shape and a delay of its own for ground and for phase loops; either may be missing. A part is a
    pair of a shape and a delay."""
    parts = {name: {**part[0], "delay_ms": part[1]} for name, part in (("ground", ground), ("phase", phase)) if part}
    return {"note": note, "keys": {"dir": direction, "trip": trip, "swing_block": swing_block, "load_block": load_block},
            "parts": parts}


def line(name, sv_id, grid, zones, number=1, mimic=None, swing=None, fuse=None, load=None, goose={}, **other):
    """A line's settings: values that suit the grid's voltage, with `other` in place of some."""
    k0_re, k0_im = grid.k0()
    z1 = grid.line[0]
    table = {
        "name": name, "sv_id": sv_id, "conf_rev": 1, "quality_mask": 3, "synch_min": 0,
        "line_r": round(1000 * z1.real), "line_x": round(1000 * z1.imag), "k0_re": k0_re, "k0_im": k0_im,
        "i_min": 300_000, "i0_min": 150_000, "dir_i2": 150_000,
        "mem_u": round(0.15 * 3 * grid.volts) * 100, "mem_ms": 100,
        "trip_min_ms": 50, "open_i": 60_000, "open_ms": 15,
    }
    if unknown := set(other) - set(table):
        raise ValueError(unknown)
    table.update(other)
    table = {k: v for k, v in table.items() if (k, v) not in (("quality_mask", 3), ("synch_min", 0))}     # the defaults
    sender = {
        "dst": "01-0C-CD-01-00-%02X" % number, "src": "02-00-00-00-00-%02X" % (16 + number), "appid": number,
        "gocb_ref": name + "PROT/LLN0$GO$gcbTrip", "dat_set": name + "PROT/LLN0$dsTrip", "go_id": name + "_Trip",
        "conf_rev": 1,
    }
    sender.update(goose)
    tables = {"mimic": mimic, "swing": swing, "fuse": fuse, "load": load}
    return {"line": table, "tables": {k: v for k, v in tables.items() if v}, "goose": sender, "zones": zones}


def settings(title, *lines, rate=4800, nominal=50, start=START, heartbeat_ms=1000, version=1):
    out = ["# " + t for t in title.split("\n")]
    out += ["", *keys({"version": version, "start": start, "rate": rate, "nominal": nominal, "heartbeat_ms": heartbeat_ms})]
    for k, one in enumerate(lines):
        notes = k == 0
        out += ["", "[[line]]", *keys(one["line"], notes)]
        for name, table in one["tables"].items():
            out += ["", "[line.%s]" % name, *keys(table, notes, load=name == "load")]
        out += ["", "[line.goose]", *keys(one["goose"], notes)]
        for z, what in enumerate(one["zones"], 1):
            out += ["", "# zone %d: %s" % (z, what["note"]), "[[line.zone]]", *keys(what["keys"], notes and z == 1)]
            for name, part in what.get("parts", {}).items():
                out += ["", "[line.zone.%s]" % name, *keys(part, notes and z == 1)]
    return "\n".join(out) + "\n"


# ------------------------------------------------------------------------------------------------ scenarios

SCENARIOS = {}


def scenario(make):
    """Registers a function that answers the settings' text and the capture's bytes."""
    SCENARIOS[make.__name__] = make
    return make


@scenario
def six_loops_trip_in_turn():
    """110 kV. AG, BG, CG, AB, BC and CA in the middle of the line, one after another. Each is on for 50 ms; then
    the breaker is open for 45 ms and the line carries load for 25 ms."""
    grid, load = GRID_110, GRID_110.load(8)
    pieces, ms = [(0, load)], 40
    for kind in ("AG", "BG", "CG", "AB", "BC", "CA"):
        pieces += [(ms, grid.fault(kind, 0.5, 8), 30), (ms + 50, grid.open(8)), (ms + 95, load, 30)]
        ms += 120
    text = settings(
        "A 110 kV line of 30 km, zone 1 alone",
        line("L1", "MU01", grid, [zone("85 % of the line, at once", mho(0.85 * grid.line[0]), "forward", 0)],
             trip_min_ms=40))
    return text, pcap(stream("MU01", wave(50, *pieces), 4800, 0, 3599, sets=8), START, 4800)


@scenario
def zone_2_delay_starts_anew_after_a_gap():
    """220 kV. A fault CG just beyond the far busbar from 60 ms to 400 ms; the sample sets 720 to 722 never came."""
    grid, load = GRID_220, GRID_220.load(12)
    z1 = grid.line[0]
    signal = wave(50, (0, load), (60, grid.fault("CG", 1.1, 12, ohms=1), 40), (400, grid.open(12)))
    text = settings(
        "A 220 kV line of 80 km with five zones, circles and quadrilaterals mixed",
        line("L1", "FIELD03-MU", grid, [
            zone("85 % of the line, at once", mho(0.85 * z1), "forward", 0),
            zone("130 % of the line", quad(30 + 43.7j, back=3, tilt=50, slope=167), "forward", 150),
            zone("twice the line", mho(2 * z1), "forward", 220),
            zone("behind the relay", quad(20 + 15j, back=5, slope=167), "reverse", 400),
            zone("starter in both directions, no trip", quad(60 + 80j, back=40), "none", 0, trip=False),
        ]))
    frames = stream("FIELD03-MU", signal, 4800, 0, 2303, sets=1, missing=range(720, 723))
    return text, pcap(frames, START, 4800, BIG_MICRO)


@scenario
def evolving_fault_and_stuck_pole():
    """220 kV. Beyond the far busbar AG at 40 ms, which becomes ABG at 85 ms and BG at 130 ms and is gone at 175 ms:
    no loop is faulted for as long as zone 2 waits. At 235 ms ABG at the same place; at 380 ms the poles of A and C
    open, and that of B carries 700 A until 460 ms."""
    grid, load = GRID_220, GRID_220.load(12)
    stuck = (0, polar(700, -110), 0, *grid.open(12)[3:])
    signal = wave(50, (0, load), (40, grid.fault("AG", 1.1, 12), 30), (85, grid.fault("ABG", 1.1, 12), 30),
                  (130, grid.fault("BG", 1.1, 12), 30), (175, load, 30),
                  (235, grid.fault("ABG", 1.1, 12), 30), (380, stuck, 30), (460, grid.open(12)))
    text = settings(
        "A 220 kV line of 80 km; each loop has a timer of its own, and a trip ends with the last pole",
        line("L1", "MU01", grid, [
            zone("85 % of the line, at once", mho(0.85 * grid.line[0]), "forward", 0),
            zone("130 % of the line", quad(25 + 43.7j, back=3, slope=167), "forward", 100),
        ], open_ms=25))
    return text, pcap(stream("MU01", signal, 4800, 0, 2495, sets=8), START, 4800)


@scenario
def reverse_fault_keeps_forward_zones_out():
    """220 kV, load comes in. A fault BC behind the relay that the neighbour clears after 70 ms, then AG behind the
    relay that stays until the breaker opens."""
    grid, load = GRID_220, GRID_220.load(-10)
    z1 = grid.line[0]
    signal = wave(50, (0, load), (40, grid.fault("BC", -0.1, -10), 30), (110, load, 30),
                  (160, grid.fault("AG", -0.1, -10), 30), (310, grid.open(-10)))
    text = settings(
        "A 220 kV line of 80 km; faults lie behind the relay",
        line("L1", "FIELD03-MU", grid, [
            zone("85 % of the line, at once", mho(0.85 * z1), "forward", 0),
            zone("its shape also holds the place of the fault, and only its direction keeps it out",
                 quad(30 + 43j, back=10, slope=167), "forward", 0),
            zone("behind the relay", quad(20 + 15j, back=5, slope=167), "reverse", 80),
            zone("behind the relay, as a circle", mho(0.4 * z1), "reverse", 200),
            zone("starter in both directions, no trip", quad(40 + 60j, back=20), "none", 0, trip=False),
        ], trip_min_ms=60))
    return text, pcap(stream("FIELD03-MU", signal, 4800, 0, 1871, sets=2), START, 4800)


@scenario
def close_in_fault_on_memory():
    """400 kV. A bolted three-phase fault at the line's beginning from 60 ms on; the breaker opens late, at 260 ms.
    Then the busbar is dead, and from 340 ms on current flows again while the voltages stay at zero."""
    grid, load = GRID_400, GRID_400.load(10)
    z1 = grid.line[0]
    bolted = (*grid.fault("ABC", 0.0, 10)[:3], 0, 0, 0)
    signal = wave(50, (0, load), (60, bolted, 60), (260, (*NO_CURRENT, 0, 0, 0)), (340, bolted, 60))
    text = settings(
        "A 400 kV line of 150 km; the voltages are lost with the fault",
        line("L1", "MU400A", grid, [
            zone("80 % of the line, at once", mho(0.8 * z1), "forward", 0),
            zone("quadrilateral with a direction, no trip", quad(20 + 38j, back=1, slope=94), "forward", 0, trip=False),
            zone("its delay is longer than the memory", mho(1.3 * z1), "forward", 150),
            zone("without a direction", quad(10 + 10j, back=10), "none", 60),
        ], mem_ms=100))
    return text, pcap(stream("MU400A", signal, 4800, 0, 2015, sets=4), START, 4800, LITTLE_NANO)


@scenario
def close_in_fault_behind_on_memory():
    """400 kV. A bolted three-phase fault on the busbar, fed through the line, from 60 ms to 140 ms: no voltage, and
    the currents come out of the line."""
    grid, load = GRID_400, GRID_400.load(10)
    bolted = (*grid.fault("ABC", -1e-9, 10)[:3], 0, 0, 0)
    signal = wave(50, (0, load), (60, bolted, 60), (140, load, 60))
    text = settings(
        "A 400 kV line of 150 km; the voltages are lost with a fault behind the relay",
        line("L1", "MU400A", grid, [
            zone("80 % of the line, at once", mho(0.8 * grid.line[0]), "forward", 0),
            zone("a shape that holds the fault, kept out by its direction", quad(20 + 38j, back=5), "forward", 0),
            zone("behind the relay, as a circle, no trip", mho(0.3 * grid.line[0]), "reverse", 0, trip=False),
            zone("behind the relay, no trip", quad(20 + 15j, back=5), "reverse", 40, trip=False),
        ]))
    return text, pcap(stream("MU400A", signal, 4800, 0, 959, sets=4), START, 4800)


def rotating(grid, angle, kind=None, place=0.0):
    """A six as a function of time: the sources' angle moves, with or without a fault on the line."""
    return lambda t: grid.fault(kind, place, angle(t)) if kind else grid.load(angle(t))


SWING_400 = {"outer_r": 60_000, "outer_x": 80_000, "inner_r": 35_000, "inner_x": 60_000,
             "pass_ms": 30, "max_ms": 250, "i2_share": 100}


def swing_zones(z1):
    return [
        zone("80 % of the line, at once, blocked by a swing", mho(0.8 * z1), "forward", 0, swing_block=True),
        zone("120 % of the line, not blocked, no trip", mho(1.2 * z1), "forward", 60, trip=False),
    ]


@scenario
def swing_blocks_until_a_fault():
    """400 kV. From 50 ms on the sources slip at 1.25 Hz. At 400 ms, when the impedance has passed through zone 1,
    comes AG at 30 % of the line; the breaker opens at 450 ms."""
    grid, angle = GRID_400, ramp((50, 65), (650, 335))
    signal = wave(50, (0, rotating(grid, angle)), (400, rotating(grid, angle, "AG", 0.3), 60), (450, grid.open(240)))
    text = settings(
        "A 400 kV line of 150 km; the sources fall out of step and then a fault comes",
        line("L1", "MU400A", grid, swing_zones(grid.line[0]), swing={**SWING_400, "max_ms": 500}))
    return text, pcap(stream("MU400A", signal, 4800, 0, 2543, sets=8), START, 4800)


@scenario
def swing_block_runs_out():
    """400 kV. The angle rises through the blinders as in a slip, and then creeps, so that the impedance stays
    within the blinders and within zone 1 for longer than a swing may block. The breaker opens at 430 ms."""
    grid, angle = GRID_400, ramp((50, 65), (220, 141.5), (520, 171.5))
    signal = wave(50, (0, rotating(grid, angle)), (430, grid.open(160)))
    text = settings(
        "A 400 kV line of 150 km; a swing that lasts longer than it may block",
        line("L1", "MU400A", grid, swing_zones(grid.line[0]), swing=SWING_400))
    return text, pcap(stream("MU400A", signal, 4800, 0, 2495, sets=8), START, 4800)


@scenario
def fuse_failure_blocks():
    """110 kV under heavy load. The fuse of phase B fails at 50 ms and is back at 140 ms. CA at 60 % of the line
    comes at 230 ms, the breaker opens at 280 ms and closes at 360 ms. The fuse of phase C fails at 400 ms, and
    while it's out comes AG at 40 % of the line, from 450 ms to 500 ms. Two merging units publish the same values;
    their lines differ in the fuse table alone."""
    grid, load = GRID_110, GRID_110.load(24)

    def without(six, channel):
        return tuple(0 if k == channel else x for k, x in enumerate(six))

    signal = wave(50, (0, load), (50, without(load, 4)), (140, load),
                  (230, grid.fault("CA", 0.6, 24), 30), (280, grid.open(24)), (360, load),
                  (400, without(load, 5)), (450, without(grid.fault("AG", 0.4, 24), 5), 30),
                  (500, without(grid.open(24), 5)))
    zones = [zone("85 % of the line, at once", mho(0.85 * grid.line[0]), "forward", 0),
             zone("large, for resistance", quad(60 + 40j, back=5, slope=300), "forward", 60)]
    text = settings(
        "Two lines with the same values; the first knows that a voltage fuse has failed",
        line("FUSE", "MU01", grid, zones, number=1, fuse={"u2_min": 1_000_000, "i2_max": 150_000, "hold_ms": 40}),
        line("NOFUSE", "MU02", grid, zones, number=2))
    units = [stream(name, signal, 4800, 0, 2735, sets=8) for name in ("MU01", "MU02")]
    return text, pcap(together(*units), START, 4800)


@scenario
def load_encroaches_on_the_zone():
    """220 kV. Light load, then heavy load from 40 ms on; BG over 40 ohms at 160 ms, gone at 210 ms; a three-phase
    fault at 70 % of the line at 260 ms; the breaker opens at 310 ms."""
    grid = GRID_220
    heavy = grid.load(52)
    signal = wave(50, (0, grid.load(15)), (40, heavy, 30), (160, grid.fault("BG", 0.5, 52, ohms=40), 30),
                  (210, heavy, 30), (260, grid.fault("ABC", 0.7, 52), 30), (310, grid.open(52)))
    shape = quad(75 + 60j, back=5)
    text = settings(
        "A 220 kV line of 80 km whose heavy load lies within a large quadrilateral",
        line("L1", "MU01", grid, [
            zone("blocked by load in the phase loops", shape, "forward", 0, trip=False, load_block=True),
            zone("the same, not blocked", shape, "forward", 0, trip=False),
            zone("85 % of the line, at once", mho(0.85 * grid.line[0]), "forward", 0, load_block=True),
        ], load={"r": 40_000, "slope": 500}))
    return text, pcap(stream("MU01", signal, 4800, 0, 1919, sets=4), START, 4800)


@scenario
def gap_clears_memory_swing_and_fuse():
    """Three lines, each with one sample set missing. MEM, 400 kV: a bolted three-phase fault from 60 ms on, the gap
    at 100 ms. SWING, 400 kV: a swing as in the other scenarios, the gap at 240 ms, when the impedance is within
    zone 1. FUSE, 110 kV: the fuse of phase B fails at 50 ms and is back at 130 ms, and the gap is at 180 ms."""
    grid = GRID_400
    bolted = (*grid.fault("ABC", 0.0, 10)[:3], 0, 0, 0)
    mem = wave(50, (0, grid.load(10)), (60, bolted, 60))
    swing = wave(50, (0, rotating(grid, ramp((30, 65), (200, 141.5), (500, 171.5)))))
    load = GRID_110.load(24)
    fuse = wave(50, (0, load), (50, tuple(0 if k == 4 else x for k, x in enumerate(load))), (130, load))
    text = settings(
        "Three lines with one supervision each",
        line("MEM", "MU01", grid, [
            zone("80 % of the line, at once", mho(0.8 * grid.line[0]), "forward", 0),
            zone("without a direction, no trip", quad(10 + 10j, back=10), "none", 0, trip=False)],
            number=1, mem_ms=150),
        line("SWING", "MU02", grid, swing_zones(grid.line[0]), number=2, swing=SWING_400),
        line("FUSE", "MU03", GRID_110, [
            zone("85 % of the line, at once", mho(0.85 * GRID_110.line[0]), "forward", 0)], number=3,
            fuse={"u2_min": 1_000_000, "i2_max": 150_000, "hold_ms": 300}))
    units = [stream(name, signal, 4800, 0, 1391, sets=8, missing=[gap])
             for name, signal, gap in (("MU01", mem, 480), ("MU02", swing, 1152), ("MU03", fuse, 864))]
    return text, pcap(together(*units), START, 4800)


@scenario
def mimic_takes_the_offset_away():
    """110 kV, no load. A three-phase fault just beyond zone 1 from 40 ms to 110 ms, near a zero of the voltage of
    phase A, so that its current is fully offset; from 200 ms on the same at 60 % of the line, and the breaker opens
    at 260 ms. Two merging units publish the same values; their lines differ in the mimic filter alone."""
    grid = GRID_110
    z1 = grid.line[0]
    tau = 30
    # the angle at which phase A's current is at its crest when the fault comes, so that the offset is full
    beyond, within = (grid.fault("ABC", place, 0) for place in (0.92, 0.6))
    turn = polar(1, -math.degrees(cmath.phase(beyond[0])))
    signal = wave(50, (0, [turn * x for x in grid.open()]), (40, [turn * x for x in beyond], tau),
                  (110, [turn * x for x in grid.open()]), (200, [turn * x for x in within], tau),
                  (260, [turn * x for x in grid.open()]))
    keep = math.exp(-1000 / (4800 * tau))                    # what is left of the offset after one sample
    gain = 1024 / abs(1 - keep * polar(1, -360 * 50 / 4800))  # so that 50 Hz keeps its size
    zones = [zone("85 % of the line, at once", mho(0.85 * z1), "forward", 0)]
    text = settings(
        "Two lines with the same values; the first takes the decaying direct current away",
        line("MIMIC", "MU01", grid, zones, number=1, mimic={"a": round(gain), "b": round(gain * keep)}),
        line("PLAIN", "MU02", grid, zones, number=2))
    units = [stream(name, signal, 4800, 0, 1631, sets=8) for name in ("MU01", "MU02")]
    return text, pcap(together(*units), START, 4800)


@scenario
def second_ends_within_a_delay_4000():
    """220 kV, 4000 sample sets a second. BC beyond the far busbar from 0.960 s on, so that the counter goes from
    3999 to 0 within the delay of zone 2, and the year ends. The impedance jumps through the blinders, which is no
    swing."""
    grid, load = GRID_220, GRID_220.load(12)
    signal = wave(50, (0, load), (960, grid.fault("BC", 1.1, 12), 40), (1060, grid.open(12)))
    swing = {"outer_r": 70_000, "outer_x": 70_000, "inner_r": 50_000, "inner_x": 55_000, "pass_ms": 30, "max_ms": 1000,
             "i2_share": 150}
    fuse, encroaching = {"u2_min": 2_000_000, "i2_max": 150_000, "hold_ms": 100}, {"r": 60_000, "slope": 500}
    blocks = {"swing_block": True, "load_block": True}
    text = settings(
        "A 220 kV line of 80 km with all supervisions, 4000 sample sets a second",
        line("L1", "MU01", grid, [
            zone("85 % of the line, at once", mho(0.85 * grid.line[0]), "forward", 0, **blocks),
            zone("130 % of the line", quad(25 + 43.7j, back=3, slope=167), "forward", 60, **blocks),
        ], swing=swing, fuse=fuse, load=encroaching),
        rate=4000, start="2024-12-31T23:59:59Z")
    return text, pcap(stream("MU01", signal, 4000, 3700, 4511, sets=16), "2024-12-31T23:59:59Z", 4000)


GRID_230 = Grid(230, near=(0.5 + 11j, 0.8 + 13j), line=(4.8 + 36j, 20 + 110j), far=(1.4 + 19j, 2.2 + 24j))


@scenario
def second_ends_within_a_cycle_4800_60():
    """230 kV, 60 Hz. ABG from 0.994 s on: the counter goes from 4799 to 0 within the cycle in which the zone picks
    up, and 29 February begins."""
    grid, load = GRID_230, GRID_230.load(14)
    signal = wave(60, (0, load), (994, grid.fault("ABG", 0.4, 14), 40), (1050, grid.open(14)))
    text = settings(
        "A 230 kV line at 60 Hz",
        line("L1", "MU01", grid, [zone("85 % of the line, at once", mho(0.85 * grid.line[0]), "forward", 0),
                                  zone("130 % of the line", mho(1.3 * grid.line[0]), "forward", 30)]),
        nominal=60, start="2024-02-28T23:59:59Z")
    return text, pcap(stream("MU01", signal, 4800, 4600, 5479), "2024-02-28T23:59:59Z", 4800, BIG_MICRO)


@scenario
def ground_and_phase_parts():
    """220 kV, settings version 2. CG over 25 ohms at half the line (40 ms to 90 ms), AB beyond the far busbar (190
    ms to 290 ms) and BG over 60 ohms (400 ms to 590 ms), each ended by the breaker, which closes again at 150 ms
    and 360 ms."""
    grid, load = GRID_220, GRID_220.load(12)
    z1 = grid.line[0]
    signal = wave(50, (0, load), (40, grid.fault("CG", 0.5, 12, ohms=25), 30), (90, grid.open(12)), (150, load, 30),
                  (190, grid.fault("AB", 1.1, 12), 30), (290, grid.open(12)), (360, load, 30),
                  (400, grid.fault("BG", 0.6, 12, ohms=60), 30), (590, grid.open(12)))
    wide = quad(35 + 28.5j, back=2, tilt=30, slope=167)
    text = settings(
        "A 220 kV line of 80 km; ground and phase loops have shapes and delays of their own",
        line("L1", "MU01", grid, [
            zone_of_parts("85 % of the line: wide for ground faults, a circle for phase faults", "forward",
                          ground=(wide, 0), phase=(mho(0.85 * z1), 0)),
            zone_of_parts("beyond the far busbar: phase faults earlier than ground faults", "forward",
                          ground=(quad(40 + 43.7j, back=3, slope=167), 250), phase=(mho(1.3 * z1), 60)),
            zone_of_parts("for ground faults over much resistance alone", "forward",
                          ground=(quad(140 + 60j, back=10), 120)),
            zone_of_parts("behind the relay, for phase faults alone", "reverse", phase=(mho(0.4 * z1), 60), trip=False),
        ]), version=2)
    return text, pcap(stream("MU01", signal, 4800, 0, 3167, sets=8), START, 4800)


def with_ether_type(kind, contents):
    return bytes.fromhex("ffffffffffff0200000000aa") + struct.pack(">H", kind) + contents


@scenario
def two_lines_in_traffic():
    """220 kV. Two merging units in one capture: MU01 with BC in its zone 1 from 40 ms to 90 ms, MU02 under load in
    frames with a VLAN tag and all optional fields. Between them comes everything that a station bus carries too."""
    grid, load = GRID_220, GRID_220.load(12)
    faulty = wave(50, (0, load), (40, grid.fault("BC", 0.5, 12), 30), (90, grid.open(12)))
    healthy = wave(50, (0, load))
    zones = [zone("85 % of the line, at once", mho(0.85 * grid.line[0]), "forward", 0)]
    text = settings(
        "Two 220 kV lines from one capture",
        line("L1", "MU01", grid, zones, number=1), line("L2", "MU02", grid, zones, number=2, goose={"vlan_id": 10}))

    fields = [(0x81, b"MU02/LLN0$dsSv"), (0x84, bytes(8)), (0x86, struct.pack(">H", 4800)), (0x88, b"\0\1"),
              (0x89, bytes(8))]                                         # data set, time, rate, kind of rate, clock
    vlan = 4 * 0x2000 + 10
    sets1 = sample_sets("MU01", faulty, 4800, 0, 1199)
    sets2 = sample_sets("MU02", healthy, 4800, 0, 999, extra=fields)
    # from capture place 1000 on the second unit has started anew: its counter begins with 0
    again = [(n - 3800, b) for n, b in sample_sets("MU02", healthy, 4800, 4800, 4999, extra=fields)]
    # one frame with sample sets of three units
    foreign = asdu("MU77", 300, data([0] * 6))
    shared = frame([foreign, sets1[300][1], sets1[301][1], sets2[300][1], sets2[301][1]])

    own1 = (framed(sets1[:300], 2) + framed(sets1[302:600], 2) + framed(sets1[600:700], 2, wide=3, security=bytes(4))
            + framed(sets1[700:], 2, behind=bytes.fromhex("1234a06488fb")))             # a redundancy trailer
    own2 = framed(sets2[:300], 2, vlan=vlan) + framed(sets2[302:], 2, vlan=vlan) + framed(again, 2, vlan=vlan)
    swapped = {800: 802, 802: 800}                                      # two frames overtook each other
    own2 = [(swapped.get(n, n), b) for n, b in own2]

    good = frame([sets1[240][1], sets1[241][1]])                        # a frame to spoil
    one = frame([sets1[280][1]])

    def spoilt(f, at, byte):
        return f[:at] + bytes([byte]) + f[at + 1:]

    traffic = [
        (0, frame([asdu("MU02", 0, data([0] * 6), conf_rev=9)])),       # own, but of another data set revision
        (0, frame([asdu("MU01", 0, bytes(60))])),                       # own, but with 60 bytes of data
        (10, with_ether_type(0x0806, bytes(46))),                       # ARP
        (20, with_ether_type(0x0800, b"\x45" + bytes(80))),             # IPv4
        (30, with_ether_type(0x88B8, bytes(110))),                      # GOOSE
        (40, with_ether_type(0x88F7, bytes(44))),                       # PTP
        (50, with_ether_type(0x892F, bytes(4) + one[12:])),             # a sampled value behind an HSR tag
        (60, one[:12] + bytes.fromhex("81000064") + frame([sets1[280][1]], vlan=vlan)[12:]),    # behind two VLAN tags
        (70, b""), (70, one[:13]),                                      # too short to have an EtherType
        (80, frame([asdu("MU99", 80, data([9_000_000] * 6)), asdu("MU99", 81, data([9_000_000] * 6))])),
        (120, frame([sets1[118][1], sets1[119][1]])),                   # the frame before comes twice
        (150, frame([sets2[140][1], sets2[141][1]], vlan=vlan)),        # an older one again
        (170, frame([asdu("MU01", 4800, data([0] * 6)), asdu("MU02", 65535, data([0] * 6))])),
        (190, frame([asdu("MU01", 190, data([0] * 6), conf_rev=2)])),
        (242, one[:20]),                                                # header
        (244, one[:60]),                                                # length
        (246, one + bytes(2100 - len(one))),                            # long
        (248, spoilt(one, 22, 0x61)),                                   # pdu
        (250, spoilt(good, 27, 3)),                                     # count: three told, two there
        (252, spoilt(one, one.index(b"\x82\x02"), 0x80)),               # asdu: svID twice
        (254, spoilt(one, one.index(b"\x87\x40") + 1, 0x3F)),           # asdu: one byte is left over
        (256, frame([sets1[280][1]] * 17)),                             # count: more than sixteen
        (300, shared),
        (1200, frame([sets2[135][1]], vlan=vlan)),                      # 64 behind the last one: late
        (1200, frame([sets2[134][1]], vlan=vlan)),                      # 65 behind: taken as a jump of most of a second
    ]
    return text, pcap(together(traffic, own1, own2), START, 4800, BIG_NANO)


@scenario
def sixteen_lines():
    """110 kV. Sixteen lines, two sample sets a frame, 0.16 s. Each line has its own kind, place and time of fault;
    two have none, and the last merging unit begins later than the others."""
    grid, load = GRID_110, GRID_110.load(8)
    faults = ["AG 0.1", "BG 0.3", "CG 0.6", "AB 0.2", "BC 0.5", "CA 0.75", "ABC 0.4", "ABG 0.7",
              "BCG 1.1", "CAG 1.15", "AG 1.1", "BC 1.05", "BG -0.1", "CA -0.2", "", ""]
    lines, units = [], []
    for k, what in enumerate(faults, 1):
        pieces, begins = [(0, load)], 28 + 1.25 * k
        if what:
            kind, place = what.split()
            opens = 95 if float(place) > 1 else 45
            pieces += [(begins, grid.fault(kind, float(place), 8), 25), (begins + opens, grid.open(8))]
        lines.append(line("L%02d" % k, "MU%02d" % k, grid, [
            zone("85 % of the line, at once", mho(0.85 * grid.line[0]), "forward", 0),
            zone("130 % of the line", quad(12 + 15.6j, back=1, tilt=30, slope=300), "forward", 40),
            zone("behind the relay, no trip", quad(8 + 6j, back=1), "reverse", 20, trip=False),
        ], number=k, trip_min_ms=25, open_ms=10))
        units.append(stream("MU%02d" % k, wave(50, *pieces), 4000, 120 if k == 16 else 0, 639))
    text = settings("Sixteen 110 kV lines of one substation", *lines, rate=4000)
    return text, pcap(together(*units), START, 4000)


@scenario
def pcapng_with_two_interfaces():
    """220 kV. AG at 40 ms, breaker opens at 90 ms, in a pcapng of three sections. Only the packets of Ethernet
    interfaces count; the same unit's sample sets on the other interface, with currents of a fault that isn't there,
    must not be seen."""
    grid, load = GRID_220, GRID_220.load(12)
    signal = wave(50, (0, load), (40, grid.fault("AG", 0.5, 12), 30), (90, grid.open(12)))
    text = settings("A 220 kV line of 80 km", line("L1", "MU01", grid, [
        zone("85 % of the line, at once", mho(0.85 * grid.line[0]), "forward", 0)]))
    frames = stream("MU01", signal, 4800, 0, 959)
    unseen = frame([asdu("MU01", 4000, data([30_000_000] * 6))])

    def section(order):
        return block(order, 0x0A0D0D0A, struct.pack(order + "IHHq", 0x1A2B3C4D, 1, 0, -1))

    def interface(order, link, snap=0):
        name = struct.pack(order + "HH", 2, 4) + b"eth0" + struct.pack(order + "HH", 0, 0)
        return block(order, 1, struct.pack(order + "HHI", link, 0, snap) + name)

    def enhanced(order, number, n, body):
        micros = seconds(START) * 10 ** 6 + n * 10 ** 6 // 4800
        fixed = struct.pack(order + "IIIII", number, micros >> 32, micros & 0xFFFFFFFF, len(body), len(body))
        comment = struct.pack(order + "HH4sHH", 1, 4, b"trip", 0, 0) if n % 50 == 0 else b""
        return block(order, 6, fixed + body + bytes(-len(body) % 4) + comment)

    def simple(order, body, kept=None):
        return block(order, 3, struct.pack(order + "I", len(body)) + body[:kept])

    first, second, third = frames[:240], frames[240:360], frames[360:]
    out = [section("<"), interface("<", 1), interface("<", 113)]
    for n, body in first:
        out.append(simple("<", body) if n % 32 == 0 else enhanced("<", 0, n, body))
        if n % 40 == 0:
            out.append(enhanced("<", 1, n, unseen))                     # not Ethernet
    out += [block("<", 4, bytes(8)), block("<", 5, bytes(16)),          # name resolution and statistics
            block("<", 2, bytes(20) + unseen)]                          # a packet block of the obsolete kind
    out += [section(">"), interface(">", 276), interface(">", 1)]       # here the first interface isn't Ethernet
    for n, body in second:
        out.append(enhanced(">", 1, n, body))
        if n % 40 == 0:
            out.append(simple(">", unseen))                             # a simple packet is the first interface's
    out += [section("<"), interface("<", 1, snap=100)]
    out.append(simple("<", third[0][1], kept=100))                      # cut to the snap length, so it's malformed
    out += [enhanced("<", 0, n, body) for n, body in third]
    return text, b"".join(out)


@scenario
def capture_ends_within_a_fault():
    """110 kV. CA from 40 ms on, and a file whose last record isn't whole."""
    grid, load = GRID_110, GRID_110.load(8)
    signal = wave(50, (0, load), (40, grid.fault("CA", 0.5, 8), 30))
    text = settings("A 110 kV line of 30 km", line("L1", "MU01", grid, [
        zone("85 % of the line, at once", mho(0.85 * grid.line[0]), "forward", 0)]))
    return text, pcap(stream("MU01", signal, 4800, 0, 335), START, 4800)[:-70]


@scenario
def quality_and_clock():
    """220 kV. Bad quality, a value out of range, and a clock without synchronism, first under load and then within
    a fault and while the breaker is open. AG from number 650 on, breaker opens at number 900."""
    grid, load = GRID_220, GRID_220.load(12)
    signal = wave(50, (0, load), (135, grid.fault("AG", 0.4, 12), 30), (187.5, grid.open(12)))
    text = settings(
        "A 220 kV line of 80 km; invalid or questionable, failure and test make a sample bad,\n"
        "and so does a clock that isn't synchronised",
        line("L1", "MU01", grid, [zone("85 % of the line, at once", mho(0.85 * grid.line[0]), "forward", 0)],
             quality_mask=QUESTIONABLE | FAILURE | TEST, synch_min=1, trip_min_ms=30, open_ms=20))
    quality = {
        150: {UA: INACCURATE, IB: DERIVED},          # bits outside the mask
        160: {IN: INVALID | TEST, UN: FAILURE},      # the sums aren't used
        200: {IC: TEST},
        760: {UB: QUESTIONABLE},
        1040: {IA: FAILURE},
    }
    change = {330: lambda six: [2 ** 28, *six[1:]], 331: lambda six: [*six[:5], -2 ** 28]}
    synch = {n: 0 for n in range(450, 500)} | {n: 1 for n in range(500, 620)}
    return text, pcap(stream("MU01", signal, 4800, 0, 1295, quality=quality, change=change, synch=synch), START, 4800)


@scenario
def goose_heartbeat():
    """220 kV, heartbeat 200 ms. The unit begins with ten sample sets and a hole of 50 ms. AG from 110 ms on, the
    breaker opens at 150 ms, and then nothing happens for more than a second."""
    grid, load = GRID_220, GRID_220.load(12)
    signal = wave(50, (0, load), (110, grid.fault("AG", 0.4, 12), 30), (150, grid.open(12)))
    text = settings(
        "A 220 kV line of 80 km; the sender's texts and numbers are as long as they may be",
        line("L1", "MU01", grid, [zone("85 % of the line, at once", mho(0.85 * grid.line[0]), "forward", 0)],
             trip_min_ms=40, goose={
                 "dst": "01-0c-cd-01-01-ff", "src": "02-00-00-00-AB-cd", "appid": 65535,
                 "vlan_priority": 7, "vlan_id": 4095,
                 "gocb_ref": ("SUBSTATION_A_BAY_3_DISTANCE_RELAY/LLN0$GO$" + "gcbTrip_" * 11)[:129],
                 "dat_set": ("SUBSTATION_A_BAY_3_DISTANCE_RELAY/LLN0$" + "dsTrip_" * 13)[:129],
                 "go_id": ("Bay_3_" * 22)[:129], "conf_rev": 4294967295}),
        rate=4000, heartbeat_ms=200)
    return text, pcap(stream("MU01", signal, 4000, 0, 5199, sets=16, missing=range(10, 210)), START, 4000)


# The sines and cosines by which the relay forms its phasors, for 96 samples a cycle
SINE = sine_table(96)
COSINE = SINE[24:] + SINE[:24]


def exact_cycle(phasor):
    """96 samples of a sine whose phasor in the relay is exactly this number of counts in both parts. A count of the
    peak is about 1.5 counts of the phasor. The rounded sine is trimmed by a few counts at four places, 90 degrees
    apart."""
    crest = phasor * 2 ** 19 / sum(math.cos(math.tau * k / 96) * COSINE[k] for k in range(96))
    x = [round((crest * cmath.exp(1j * math.tau * k / 96)).real) for k in range(96)]
    for place, table, sign, wanted in ((0, COSINE, 1, phasor.real), (72, SINE, -1, phasor.imag)):
        while (part := (sign * sum(v * t for v, t in zip(x, table))) // 2 ** 19) != wanted:
            step = 1 if part < wanted else -1
            x[place] += step
            x[(place + 48) % 96] -= step
    return x


@scenario
def on_the_boundary():
    """A test bench with one voltage and one current, whose phasors in the relay are exact to the count. In each
    step the voltage comes first, then for 100 samples the current, and the voltage goes on until the current has
    left the cycle."""
    q, m = 600_000, 300_000                      # phasors of a current above all minima, and i_min in mA
    torque = 3.2 * q * (1 + 1j)                  # with 5 q (1 + 1j) a voltage over 4 ohms
    # voltage and current of each step; with k0 = 0.6 the loop's current is 1.6 times the phase current
    steps = [
        (8 * q, -5j * q),                        # 10 ohms of pure reactance, just at the reach
        (8 * q - 1, -5j * q),                    # a count within
        (8 * q + 1, -5j * q),                    # a count beyond
        (-4j * q, -5j * q),                      # 5 ohms of pure resistance, just at the reach: no torque against 3U1
        (-4j * q - 1j, -5j * q),                 # a count beyond
        (2.2 * m * (1 + 0.5j), 1.5 * m * (1 - 1j)),          # the current is just i_min
        (2.2 * m * (1 + 0.5j), 1.5 * m * (1 - 1j) - 1),      # a count less in one part
        (torque, 5 * q * (1 + 1j)),              # 3I2 is just dir_i2 and 3U2 in phase with it: no torque
        (torque + 1, 5 * q * (1 + 1j)),          # 3U2 turned by a count to the one side
        (torque + 1j, 5 * q * (1 + 1j)),         # and to the other
    ]
    rest, values = [0] * 96, []
    for u, i in steps:
        volts, amperes = exact_cycle(complex(u)), exact_cycle(complex(i))
        for k in range(300):
            n = len(values)
            values.append([(amperes if 100 <= k < 200 else rest)[n % 96], 0, 0, volts[n % 96], 0, 0])
    sets = [(n, asdu("BENCH", n, data(six))) for n, six in enumerate(values)]
    shape = {"shape": "quad", "reach_r": 5000, "reach_x": 10_000, "tilt": 0, "slope": 0}
    text = settings(
        "A test bench with one phase; all limits are met to the count",
        line("BENCH", "BENCH", GRID_110, [
            zone("a circle", mho(10j), "forward", 0),
            zone("a rectangle that ends at the relay", {**shape, "back_x": 0}, "none", 0, trip=False),
            zone("with a direction, and a little behind the relay", {**shape, "back_x": 1000}, "forward", 0,
                 trip=False),
            zone("the same backwards", {**shape, "back_x": 1000}, "reverse", 0, trip=False),
        ], line_r=0, line_x=12_000, k0_re=600, k0_im=0, i_min=m, i0_min=100_000, dir_i2=2_000_000, mem_u=10_000,
            trip_min_ms=0))
    return text, pcap(framed(sets, 8), START, 4800)


@scenario
def all_loops_of_five_zones_at_once():
    """110 kV. The unit begins within a fault AG under load; every loop lies within every zone. Number 130 is
    missing."""
    grid = GRID_110
    signal = wave(50, (0, grid.fault("AG", 0.9, 20, ohms=10)))
    zones = [zone("holds everything", quad(reach * (1 + 1j), back=300), "none", 0) for reach in range(300, 800, 100)]
    text = settings("A 110 kV line with five zones that hold everything",
                    line("L1", "MU01", grid, zones, i_min=50_000, i0_min=50_000))
    return text, pcap(stream("MU01", signal, 4800, 0, 239, sets=1, missing=[130]), START, 4800)


@scenario
def values_at_their_limits():
    """Square waves between the greatest and the least value in all channels, with all settings at the ends of their
    ranges. Every 120 samples other channels change their sign or their place in the cycle."""
    most = 2 ** 28 - 1

    def square(places):
        """1, 0 or -1 as the cosine's sign is, moved by so many samples"""
        return lambda n: (COSINE[(n + places) % 96] > 0) - (COSINE[(n + places) % 96] < 0)

    up, down, side, back = square(0), square(48), square(24), square(72)
    patterns = [(side, side, side, up, up, up), (side, side, side, up, down, down), (up, down, up, up, down, side),
                (back, side, side, up, up, down), (down, down, down, up, up, up),
                (side, square(40), square(8), up, down, back)]
    samples = [data([most * f(n) for f in patterns[n // 120]], sums=False) for n in range(120 * len(patterns))]
    units = [framed([(n, asdu(name, n, b)) for n, b in enumerate(samples)], 8) for name in ("MU01", "MU02")]

    ends = {"line_r": 1_000_000, "line_x": 1_000_000, "k0_re": 4000, "k0_im": -4000,
            "i_min": 100_000_000, "i0_min": 100_000_000, "dir_i2": 100_000_000, "mem_u": 100_000_000, "mem_ms": 5000,
            "trip_min_ms": 0, "open_i": 100_000_000, "open_ms": 1}
    tables = {"swing": {"outer_r": 1_000_000, "outer_x": 1_000_000, "inner_r": 1, "inner_x": 1, "pass_ms": 1,
                        "max_ms": 60_000, "i2_share": 1000},
              "fuse": {"u2_min": 100_000_000, "i2_max": 1, "hold_ms": 60_000}, "load": {"r": 1, "slope": 10_000}}
    corner = {"reach_r": 1_000_000, "reach_x": 1_000_000}
    leaning = {"shape": "quad", **corner, "tilt": 500, "slope": 1000, "back_x": 1_000_000}
    falling = {"shape": "quad", **corner, "tilt": -500, "slope": 0, "back_x": 0}
    least = {"shape": "quad", "reach_r": 1, "reach_x": 1, "tilt": 0, "slope": 0, "back_x": 0}
    zones = [
        zone("a circle", {"shape": "mho", **corner}, "forward", 0),
        zone("a circle backwards", {"shape": "mho", **corner}, "reverse", 0),
        zone("tilted and leaning", leaning, "none", 0),
        zone("tilted the other way", falling, "forward", 0, trip=False, swing_block=True, load_block=True),
        zone("the smallest", least, "reverse", 0, trip=False),
    ]
    text = settings(
        "Settings at the ends of their ranges; the second line's filter is driven into its limit",
        line("L1", "MU01", GRID_400, zones, number=1, **tables, **ends),
        line("L2", "MU02", GRID_400, zones, number=2, mimic={"a": 65536, "b": 1024}, **tables, **ends))
    return text, pcap(together(*units), START, 4800)


def main(words):
    """Writes the scenarios that the words name."""
    to = HERE
    if words[:1] == ["--to"]:
        if len(words) < 2:
            sys.exit(__doc__)
        to, words = words[1], words[2:]
    if unknown := [name for name in words if name not in SCENARIOS]:
        sys.exit("make.py: no such scenario: %s; there are: %s" % (" ".join(unknown), " ".join(SCENARIOS)))
    for name in words or SCENARIOS:
        text, capture = SCENARIOS[name]()
        folder = os.path.join(to, name)
        os.makedirs(folder, exist_ok=True)
        with open(os.path.join(folder, "settings.toml"), "w", encoding="ascii", newline="\n") as file:
            file.write(text)
        with open(os.path.join(folder, "capture.pcap"), "wb") as file:
            file.write(capture)
        print("%-40s %8d bytes" % (name, len(capture)))


if __name__ == "__main__":
    main(sys.argv[1:])
