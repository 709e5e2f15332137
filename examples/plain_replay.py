#!/usr/bin/env python3
"""Replays a capture by the whole relay's rules, in plain whole numbers: Python's standard library alone.

    plain_replay.py SETTINGS CAPTURE GOOSE LOG

This is not the proved program, and nothing here is proved. It is slow, and there to be held against the program. What isn't a
capture, or a settings file that the program's `check` would refuse, is told at the most by an error of Python's. A capture that
ends within a record gives what its whole records give.
"""
import datetime
import struct
import sys

import plain_relay as rules
import sampled_values as sv


FACTS = (("ready", "ready", "lost"), ("swing", "swing on", "swing off"), ("fuse", "fuse on", "fuse off"))


class Replayed:
    """A line's facts as they were at its last taken sample, and its sender of GOOSE frames."""

    def __init__(self, line):
        self.line, self.outcomes = line, iter(line.outcomes)
        self.runs = [[0] * 6 for _ in line.line["zones"]]       # samples in a row inside, by zone and loop
        self.facts, self.inside, self.operated, self.trip = [False] * 3, set(), set(), False
        self.last, self.operating_at, self.dead = None, None, 0
        self.points, self.change, self.state, self.sequence = None, None, 0, 0

    # ------------------------------------------------------------------------------------------------ events

    def hear(self):
        """The log's lines, and the GOOSE record where one is sent, of the line's next own sample set."""
        words, taken, number = next(self.outcomes)
        told, record = [words] if words else [], None
        if taken:
            one = self.line.samples[number]
            told += self.turn(one)
            record = self.send(number, one)
            self.last = number
        place = "- -" if number is None else f"{self.time(number)} {number}"
        return [f"{self.line.line['name']} {place} {text}\n" for text in told], record

    def turn(self, one):
        """Takes a sample, and answers the words of each fact that isn't as it was."""
        followed = self.last is not None and one.number == self.last + 1
        inside, operated = self.loops(one, followed)
        facts = [getattr(one, name) for name, _, _ in FACTS]
        told = [begins if now else ends for (_, begins, ends), now, was in zip(FACTS, facts, self.facts) if now != was]
        name = lambda z, lp: f"zone {z + 1} {rules.LOOPS[lp]}"
        told += [f"{name(*it)} {'in' if it in inside else 'out'}" for it in sorted(inside ^ self.inside)]
        told += [f"{name(*it)} operate" for it in sorted(operated - self.operated)]
        was_tripped = self.trip
        self.seal(one, followed, any(self.line.line["zones"][z]["trip"] for z, _ in operated))
        if self.trip != was_tripped:
            told.append("trip" if self.trip else "reset")
        self.facts, self.inside, self.operated = facts, inside, operated
        return told

    def loops(self, one, followed):
        """The pairs of zone and loop that are inside, and those that operate. A run goes on only over samples that follow
        one another."""
        inside, operated = set(), set()
        for z, zone in enumerate(self.line.line["zones"]):
            for lp in range(6):
                run = self.runs[z][lp] if followed else 0
                self.runs[z][lp] = run + 1 if self.line.is_inside(one, zone, lp) else 0
                if self.runs[z][lp]:
                    inside.add((z, lp))
                    if self.runs[z][lp] > self.line.common.samples(self.line.part(zone, lp)["delay_ms"]):
                        operated.add((z, lp))
        return inside, operated

    def seal(self, one, followed, operates):
        """Raises, holds or ends the trip."""
        table, samples = self.line.line, self.line.common.samples
        self.dead = (self.dead if followed else 0) + 1 if self.line.is_dead(one.number) else 0
        if operates:
            self.trip, self.operating_at = True, one.number
        elif self.trip and one.number >= self.operating_at + samples(table["trip_min_ms"]) and self.dead >= samples(table["open_ms"]):
            self.trip = False

    def time(self, number):
        seconds, nanos = self.clock(number)
        text = (datetime.datetime(1970, 1, 1) + datetime.timedelta(seconds=seconds)).strftime("%Y-%m-%dT%H:%M:%S")
        return f"{text}.{nanos:09}Z"

    def clock(self, number):
        rate = self.line.common.rate
        return (self.line.common.start + number // rate) % 2 ** 32, number % rate * 10 ** 9 // rate

    # ------------------------------------------------------------------------------------------------ GOOSE frames

    def offsets(self):
        """The offsets of the schedule in ms: steps of 4, 8, 16 and so on, none longer than the heartbeat."""
        at, step = 0, 4
        while True:
            yield at
            at, step = at + min(step, self.line.common.heartbeat_ms), step * 2

    def send(self, number, one):
        """The record of the frame that is sent at this taken sample, or none."""
        zones = sum(1 << z for z in {z for z, _ in self.operated})
        points = (self.trip, bool(self.inside), one.swing, one.fuse, zones, one.ready)
        changed = points != self.points
        self.points = points
        if changed:
            self.change, self.state, self.sequence = number, following(self.state), 0
        due, reached = changed, 0
        for offset in self.offsets():
            at = self.change + self.line.common.samples(offset)
            if at > number:
                break
            due, reached = due or self.last < at, offset
        if not due:
            return None
        if not changed:
            self.sequence = following(self.sequence)
        body = self.frame(3 * (offset - reached))
        return struct.pack("<IIII", *self.clock(number), len(body), len(body)) + body

    def frame(self, live_ms):
        goose, rate = self.line.line["goose"], self.line.common.rate
        fraction = self.change % rate * 2 ** 24 // rate
        at = struct.pack(">I", self.clock(self.change)[0]) + fraction.to_bytes(3, "big") + b"\x0a"
        text = lambda tag, key: sv.element(tag, goose[key].encode("ascii"))
        number = lambda tag, value: sv.element(tag, value.to_bytes(value.bit_length() // 8 + 1, "big"))
        pdu = sv.element(0x61, text(0x80, "gocb_ref") + number(0x81, live_ms) + text(0x82, "dat_set") + text(0x83, "go_id")
                         + sv.element(0x84, at) + number(0x85, self.state) + number(0x86, self.sequence) + b"\x87\x01\x00"
                         + number(0x88, goose["conf_rev"]) + b"\x89\x01\x00\x8a\x01\x09"
                         + sv.element(0xAB, data_set(self.points)))
        tag = goose.get("vlan_priority", 4) * 8192 + goose.get("vlan_id", 0)
        addresses = b"".join(bytes.fromhex(goose[key].replace("-", "")) for key in ("dst", "src"))
        return addresses + struct.pack(">HHHHHHH", 0x8100, tag, 0x88B8, goose["appid"], 8 + len(pdu), 0, 0) + pdu


def following(count):
    """A count of changes or frames goes from 2^32 - 1 to 1."""
    return 1 if count == 2 ** 32 - 1 else count + 1


def data_set(points):
    """The nine values: trip, start, swing and fuse, each with its quality, and the zones that operate."""
    *values, zones, ready = points
    good = (ready or values[0], ready, ready, ready)            # a trip that stands keeps a good quality
    qualities = (b"\x84\x03\x03\x00\x00" if it else b"\x84\x03\x03\x40\x00" for it in good)
    return b"".join(bytes([0x83, 1, value]) + quality for value, quality in zip(values, qualities)) + bytes([0x86, 1, zones])


def replay(settings_path, capture_path):
    """The bytes of the GOOSE capture and the text of the log."""
    settings = rules.Settings(settings_path)
    with open(capture_path, "rb") as file:
        bodies, stop = sv.records(file.read())
    sets = list(sv.heard(bodies))
    lines = {line["sv_id"].encode("ascii"): Replayed(rules.Line(settings, line, sets)) for line in settings.lines}
    log, goose = [], [sv.pcap([], 0, settings.rate, sv.LITTLE_NANO)]
    for k, body in enumerate(bodies, 1):
        try:
            heard = sv.sample_sets(body)
        except sv.Malformed as word:
            log.append(f"frame {k} malformed {word}\n")
            continue
        for one in heard:
            if one.sv_id in lines:
                told, record = lines[one.sv_id].hear()
                log += told
                goose += [record] if record else []
    if stop:
        print(f"plain_replay: {stop}", file=sys.stderr)
    return b"".join(goose), "".join(log)


if __name__ == "__main__":
    if len(sys.argv) != 5:
        sys.exit(__doc__)
    try:
        written = replay(sys.argv[1], sys.argv[2])
        for path, contents in zip(sys.argv[3:], (written[0], written[1].encode("ascii"))):
            with open(path, "wb") as out:
                out.write(contents)
    except (sv.Unreadable, OSError, rules.tomllib.TOMLDecodeError) as error:
        sys.exit(f"plain_replay: {error}")
