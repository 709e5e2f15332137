#!/usr/bin/env python3
"""Runs a study over a capture by its rules, in plain whole numbers: Python's standard library alone.

    plain_studies.py backup SETTINGS CAPTURE LOG CURVE PICKUP TMS
    plain_studies.py locate SETTINGS CAPTURE LOG
    plain_studies.py guard SETTINGS CAPTURE LOG FAIL_MS DEAD_MS RECLAIM_MS

This is not the proved program, and nothing here is proved. It is slow, and there to be held against the program, in which
some of these studies may not be built yet. Numbers and files are taken to be as the program asks them to be. A capture that
ends within a record gives what its whole records give.
"""
import math
import sys

import plain_relay as rules
import sampled_values as sv
from plain_replay import Replayed

MOST_DISTANCE = 10 ** 6


class Backup:
    """Inverse-time overcurrent of a line's phases. Each sum is formed anew over the run that ends at the newest sample."""

    def __init__(self, line, curve, pickup, tms):
        self.line, self.pickup = line, int(pickup)
        self.is_very, tms = {"very": True, "extremely": False}[curve], int(tms)
        rate = line.common.rate
        self.enough = -(-27 * tms * rate // 2) if self.is_very else 80000 * tms * rate
        self.was = [(False, False)] * 3
        self.runs = [[], [], []]

    def multiple(self, p):
        """The square of the multiple of the pickup, in millionths."""
        return min(400_000_000, 10 ** 6 * 2048 * rules.square(p) // (self.line.n ** 2 * self.pickup ** 2))

    def take(self, one, follows, _texts):
        told = []
        for k, name in enumerate("ABC"):
            multiple = self.multiple(one.i[k]) if one.ready else 0
            picked = multiple >= 10 ** 6
            before = self.runs[k] if follows else []
            excess = math.isqrt(multiple) - 1000 if self.is_very else multiple - 10 ** 6
            self.runs[k] = before + [excess] if picked else []
            done = picked and sum(self.runs[k]) >= self.enough
            was_picked, was_done = self.was[k]
            self.was[k] = picked, done
            if picked != was_picked:
                told.append(f"backup {name} {'start' if picked else 'drop'}")
            if done and not was_done:
                told.append(f"backup {name} operate")
        return told


class Locate:
    """Two distances to a fault, a cycle after each trip, in thousandths of the line."""

    def __init__(self, line):
        self.line, self.pending = line, None

    def take(self, one, _follows, texts):
        told, n = [], self.line.n
        if "trip" in texts:
            self.pending = one.number, self.first_loop(texts)
        elif self.pending and one.number >= self.pending[0] + n:
            told.append(self.located(one, *self.pending))
            self.pending = None
        return told

    def first_loop(self, texts):
        for text in texts:
            words = text.split(" ")
            if words[0] == "zone" and words[3] == "operate" and self.line.line["zones"][int(words[1]) - 1]["trip"]:
                return rules.LOOPS.index(words[2])
        raise AssertionError("a trip without a zone that operates")

    def located(self, one, tripped, lp):
        distance = takagi = None
        if one.number == tripped + self.line.n and one.ready:
            u, i = self.line.loop(one, lp)
            voltage, zl = rules.scaled(10 ** 7, u), (self.line.line["line_r"], self.line.line["line_x"])
            if rules.square(i):
                distance = 1000 * rules.times_conjugate(voltage, i)[1] // (zl[1] * rules.square(i))
            first = tripped - 2 * self.line.n
            before = self.line.samples.get(first)
            if before is not None and before.ready and all(k in self.line.samples for k in range(first, tripped + 1)):
                change = rules.minus(i, self.line.loop(before, lp)[1])
                per = rules.times_conjugate(rules.times(zl, i), change)[1]
                if per:
                    takagi = 1000 * rules.times_conjugate(voltage, change)[1] // per
        return f"locate {rules.LOOPS[lp]} {limited(distance)} takagi {limited(takagi)}"


def limited(distance):
    return "none" if distance is None else max(-MOST_DISTANCE, min(MOST_DISTANCE, distance))


class Guard:
    """Breaker failure, and one reclosing, over the whole list of the line's trips."""

    def __init__(self, line, fail_ms, dead_ms, reclaim_ms):
        self.line = line
        self.fail, self.dead, self.reclaim = (line.common.samples(int(ms)) for ms in (fail_ms, dead_ms, reclaim_ms))
        self.rise, self.stands, self.failed, self.is_final, self.due, self.closed = None, False, False, False, None, None

    def take(self, one, _follows, texts):
        told, number = [], one.number
        if "trip" in texts:
            self.rise, self.stands, self.failed, self.due = number, True, False, None
            self.is_final = self.closed is not None and self.closed < number <= self.closed + self.reclaim
            told += ["guard final"] if self.is_final else []
        if "reset" in texts:
            self.stands = False
            self.due = None if self.failed or self.is_final else number + self.dead
        flowing = one.ready and any(self.line.at_least(i, self.line.line["open_i"]) for i in one.i)
        if self.stands and not self.failed and flowing and number >= self.rise + self.fail:
            self.failed = True
            told.append("guard fail")
        if self.due is not None and number >= self.due:
            self.closed, self.due = number, None
            told.append("guard reclose")
        return told


STUDIES = {"backup": Backup, "locate": Locate, "guard": Guard}


class Studied:
    """A line with its study, which takes each of its taken samples with what the relay's log says of it."""

    def __init__(self, line, study):
        self.replayed, self.study, self.last = Replayed(line), study, None

    def hear(self):
        taken_before = self.replayed.last
        lines, _ = self.replayed.hear()
        number = self.replayed.last
        if number == taken_before:
            return []
        texts = [text.rstrip("\n").split(" ", 3)[3] for text in lines]
        told = self.study.take(self.replayed.line.samples[number], self.last == number - 1, texts)
        self.last = number
        name, time = self.replayed.line.line["name"], self.replayed.time(number)
        return [f"{name} {time} {number} {text}\n" for text in told]


def run(kind, settings_path, capture_path, *words):
    """The text of the log."""
    settings = rules.Settings(settings_path)
    with open(capture_path, "rb") as file:
        bodies, _ = sv.records(file.read())
    sets = list(sv.heard(bodies))
    lines = {}
    for keys in settings.lines:
        line = rules.Line(settings, keys, sets)
        lines[keys["sv_id"].encode("ascii")] = Studied(line, STUDIES[kind](line, *words))
    log = []
    for k, body in enumerate(bodies, 1):
        try:
            heard = sv.sample_sets(body)
        except sv.Malformed as word:
            log.append(f"frame {k} malformed {word}\n")
            continue
        for one in heard:
            if one.sv_id in lines:
                log += lines[one.sv_id].hear()
    return "".join(log)


if __name__ == "__main__":
    if len(sys.argv) < 5 or sys.argv[1] not in STUDIES:
        sys.exit(__doc__)
    try:
        kind, settings_path, capture_path, log_path, *words = sys.argv[1:]
        text = run(kind, settings_path, capture_path, *words)
        with open(log_path, "wb") as out:
            out.write(text.encode("ascii"))
    except (sv.Unreadable, OSError, rules.tomllib.TOMLDecodeError) as error:
        sys.exit(f"plain_studies: {error}")
