#!/usr/bin/env python3
"""The exercise of `drill`, made and counted by plain programs: Python's standard library alone, outside what is proved.

    drill.py SEED SECONDS                       prints the line that `relay drill SEED SECONDS` answers
    drill.py SEED SECONDS SETTINGS CAPTURE      also writes the exercise as a settings file and a capture, for `replay`

Two lines send in turn, two samples a frame. In each second each line is what a word of a PCG32 generator says, drawn when the
second begins, first for line 1 and then for line 2: the word's remainder by four.
"""
import os
import sys
import tempfile

import plain_replay
import sampled_values as sv
from capture import RATE, START, fault, healthy

HERE = os.path.dirname(os.path.abspath(__file__))
FAULT, GAP, BAD_SAMPLE, HEALTHY = range(4)
LINES = ("MU01", "MU02")
# what the second line has of its own
SECOND = {"name": '"L2"', "sv_id": '"MU02"', "dst": '"01-0C-CD-01-00-02"', "appid": "2", "gocb_ref": '"P1/LLN0$GO$G2"'}
FACTOR, LOW = 6364136223846793005, 2 ** 32 - 1


def turned_out(state, by):
    """32 bits of a state, turned to the right."""
    bits = ((state >> 18 ^ state) >> 27) & LOW
    return (bits >> by | bits << (32 - by)) & LOW


def words(seed):
    """The outputs of the PCG32 generator that a number seeds: four words of another one make its state and increment."""
    state, made = seed, []
    for _ in range(4):
        state = (state * FACTOR + 11634580027462260723) % 2 ** 64
        made.append(turned_out(state, state >> 59))
    increment = (made[3] << 32 | made[2]) | 1
    state = (made[1] << 32 | made[0]) + increment
    while True:
        state = (state * FACTOR + increment) % 2 ** 64
        yield turned_out(state, state >> 59)


def sample_set(sv_id, kind, counter):
    six = fault(counter) if kind == FAULT and 1464 <= counter < 3864 else healthy(counter)
    quality = {sv.UN: 0, **({sv.IA: 1} if kind == BAD_SAMPLE and counter == 2000 else {})}
    return sv.asdu(sv_id, counter, sv.data(six, quality, neutral_voltage=False))


def frames(seed, seconds):
    """Each frame with the number of its first sample."""
    drawn = words(seed)
    for second in range(seconds):
        kinds = [next(drawn) % 4 for _ in LINES]
        for counter in range(0, RATE, 2):
            for sv_id, kind in zip(LINES, kinds):
                if kind != GAP or counter not in (1000, 1002):
                    yield RATE * second + counter, sv.frame([sample_set(sv_id, kind, c) for c in (counter, counter + 1)])


def settings():
    """The settings of the ground fault's line, and of a second one like it."""
    with open(f"{HERE}/ground_fault/settings.toml", encoding="ascii") as file:
        text = file.read()
    at = text.index("[[line]]")
    second = [f"{key} = {SECOND[key]}" if (key := line.split(" ")[0]) in SECOND else line for line in text[at:].splitlines()]
    return text + "\n" + "\n".join(second) + "\n"


def main(seed, seconds, *paths):
    made = list(frames(int(seed), int(seconds)))
    with tempfile.TemporaryDirectory() as folder:
        paths = paths or (f"{folder}/settings.toml", f"{folder}/capture.pcap")
        with open(paths[0], "w", encoding="ascii") as file:
            file.write(settings())
        with open(paths[1], "wb") as file:
            file.write(sv.pcap(made, START, RATE))
        goose, log = plain_replay.replay(*paths)
    trips = sum(line.endswith(" trip") for line in log.splitlines())
    print(f"frames {len(made)} events {log.count(chr(10))} sends {len(sv.records(goose)[0])} trips {trips}")


if __name__ == "__main__":
    if len(sys.argv) not in (3, 5):
        sys.exit(__doc__)
    main(*sys.argv[1:])
