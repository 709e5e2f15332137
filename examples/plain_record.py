#!/usr/bin/env python3
"""Writes the record of a line's trip as a pair of files, in plain whole numbers: Python's standard library alone.

    plain_record.py SETTINGS CAPTURE LINE K CONFIG DATA

This is not the proved program, and nothing here is proved. It is slow, and there to be held against the program: it writes the
same pair after the ASCII form of COMTRADE 1999, and ends with the same status where no line has the name (10) or a whole
capture has fewer trips (9). Numbers and files are taken to be as the program asks them to be.
"""
import datetime
import sys

import plain_relay as rules
import sampled_values as sv
from plain_replay import Replayed

CHANNELS = (("IA", "mA", 1), ("IB", "mA", 1), ("IC", "mA", 1), ("UA", "mV", 10), ("UB", "mV", 10), ("UC", "mV", 10))
NO_LINE, NO_TRIP = 10, 9


class Recorded(Replayed):
    """A line, with the numbers at which it tripped and whether the trip stood at each taken sample."""

    def __init__(self, line):
        super().__init__(line)
        self.trips, self.stood = [], {}

    def hear(self):
        before = self.last
        texts, _ = super().hear()
        if self.last != before:
            self.stood[self.last] = self.trip
            if any(text.rstrip("\n").endswith(" trip") for text in texts):
                self.trips.append(self.last)

    def moment(self, number):
        seconds, nanos = self.clock(number)
        text = (datetime.datetime(1970, 1, 1) + datetime.timedelta(seconds=seconds)).strftime("%d/%m/%Y,%H:%M:%S")
        return f"{text}.{nanos // 1000:06}"

    def pair(self, trip):
        """The texts of the record of this trip, two cycles before it to four behind."""
        common, n = self.line.common, self.line.n
        covered = sorted(number for number in self.stood if trip - 2 * n <= number <= trip + 4 * n)
        config = [self.line.line["name"].replace(",", "_") + ",relay,1999", "8,6A,2D"]
        config += [f"{i},{name},{name[1]},,{unit},{factor},0,0,-268435455,268435455,1,1,P"
                   for i, (name, unit, factor) in enumerate(CHANNELS, 1)]
        config += ["1,GOOD,,,0", "2,TRIP,,,0", str(common.nominal), "1", f"{common.rate},{len(covered)}",
                   self.moment(covered[0]), self.moment(trip), "ASCII", "1"]
        rows = [self.row(i, number, (number - covered[0]) * 10 ** 6 // common.rate) for i, number in enumerate(covered, 1)]
        return ended(config), ended(rows) + "\x1a"

    def row(self, i, number, micros):
        one = self.line.samples[number]
        values = one.values if one.good else [0] * 6
        return ",".join(str(x) for x in [i, micros, *values, int(one.good), int(self.stood[number])])


def ended(lines):
    return "".join(line + "\r\n" for line in lines)


def record(settings_path, capture_path, name, k):
    """Both texts; or none, and a status where there is one that tells why."""
    settings = rules.Settings(settings_path)
    keys = next((keys for keys in settings.lines if keys["name"] == name), None)
    if keys is None:
        return None, NO_LINE
    with open(capture_path, "rb") as file:
        bodies, stop = sv.records(file.read())
    sets = list(sv.heard(bodies))
    line = Recorded(rules.Line(settings, keys, sets))
    for one in sets:
        if one.sv_id == keys["sv_id"].encode("ascii"):
            line.hear()
    if len(line.trips) < k:
        return None, None if stop else NO_TRIP
    return line.pair(line.trips[k - 1]), None


if __name__ == "__main__":
    if len(sys.argv) != 7:
        sys.exit(__doc__)
    try:
        pair, status = record(sys.argv[1], sys.argv[2], sys.argv[3], int(sys.argv[4]))
        for path, text in zip(sys.argv[5:], pair or ()):
            with open(path, "wb") as out:
                out.write(text.encode("ascii"))
        sys.exit(status)
    except (sv.Unreadable, OSError, rules.tomllib.TOMLDecodeError) as error:
        sys.exit(f"plain_record: {error}")
