#!/usr/bin/env python3
"""Holds the built program against the plain one over random settings and captures: Python's standard library alone.

    compare.py SEED COUNT [KEEP]

Each case is a few lines of a network with random zones and tables, faults, swings, lost voltages and breaker openings, gaps,
bad quality, repeated, swapped and broken frames, in either version of the settings, as pcap or pcapng. Both programs
replay it, and run studies over it; where logs, GOOSE file or note differ, the case is kept in the folder KEEP (here by
default) and the status is 1.
Equal seeds make equal cases. With COUNT 0 and a seed such as 7/3 the one case 3 of seed 7 is made and compared.
"""
import os
import random
import struct
import subprocess
import sys
import tempfile

import make
from make import (GRID_110, GRID_220, GRID_400, line, mho, pcap, quad, ramp, rotating, settings, together, wave, zone,
                  zone_of_parts)

sys.path.insert(0, os.path.dirname(make.HERE))
import plain_replay
import plain_studies
import sampled_values as sv

RELAY = os.path.join(os.path.dirname(os.path.dirname(make.HERE)), "crates/relay_main/out/relay_main")
KINDS = ("AG", "BG", "CG", "AB", "BC", "CA", "ABG", "BCG", "CAG", "ABC")


def maybe(rng, share, value):
    return value if rng.random() < share else None


def shape_of(rng, z1):
    size = rng.choice((0.3, 0.5, 0.85, 1.3, 2, 4))
    if rng.random() < 0.5:
        return mho(size * z1)
    return quad(complex(rng.choice((0.3, 1, 2)) * size * abs(z1), size * z1.imag), back=rng.choice((0, 1, 20)),
                tilt=rng.randint(-500, 500) if rng.random() < 0.3 else 0, slope=rng.choice((0, 100, 300, 1000)))


def zone_keys(rng, z1, version):
    direction = rng.choice(("forward", "forward", "reverse", "none"))
    delay = lambda: rng.choice((0, 0, 1, 7, 20, 60))
    flags = {name: rng.random() < share for name, share in (("trip", 0.7), ("swing_block", 0.4), ("load_block", 0.4))}
    if version == 1:
        return zone("random", shape_of(rng, z1), direction, delay(), **flags)
    parts = {name: (shape_of(rng, z1), delay()) for name in rng.choice((["ground"], ["phase"], ["ground", "phase"]))}
    return zone_of_parts("random", direction, **parts, **flags)


def line_keys(rng, number, grid, version):
    z1 = grid.line[0]
    ohms = round(1000 * abs(z1))
    inner = rng.randint(ohms // 4, 2 * ohms), rng.randint(ohms // 4, 2 * ohms)
    tables = {
        "mimic": maybe(rng, 0.3, rng.choice(({"a": 15615, "b": 15507}, {"a": 1024, "b": 0}, {"a": 2048, "b": 1024}))),
        "swing": maybe(rng, 0.4, {"outer_r": inner[0] + ohms, "outer_x": inner[1] + ohms,
                                  "inner_r": inner[0], "inner_x": inner[1],
                                  "pass_ms": rng.choice((1, 5, 30)), "max_ms": rng.choice((20, 100, 500)),
                                  "i2_share": rng.choice((0, 100, 1000))}),
        "fuse": maybe(rng, 0.4, {"u2_min": rng.choice((500_000, 2_000_000)), "i2_max": rng.choice((150_000, 2_000_000)),
                                 "hold_ms": rng.choice((1, 20, 100))}),
        "load": maybe(rng, 0.4, {"r": rng.randint(1000, 6 * ohms), "slope": rng.choice((0, 300, 3000))}),
    }
    other = {"i_min": rng.choice((1, 100_000, 300_000)), "i0_min": rng.choice((1, 50_000, 150_000)),
             "dir_i2": rng.choice((1, 150_000, 100_000_000)), "mem_ms": rng.choice((0, 20, 100)),
             "trip_min_ms": rng.choice((0, 20, 50)), "open_ms": rng.choice((1, 10, 20)), "synch_min": rng.choice((0, 0, 1)),
             "quality_mask": rng.choice((3, 3, 0x803))}
    zones = [zone_keys(rng, z1, version) for _ in range(rng.choice((0, 1, 1, 2, 3, 5)))]
    return line(f"L{number}", f"MU{number:02}", grid, zones, number=number, **tables, **other)


def signal_of(rng, grid, hz, first_ms, last_ms):
    """Load, and then some of: a fault, a lost voltage, an opening, a swing, each until the next one."""
    degrees = rng.choice((-40, -10, 8, 25, 50))
    pieces, ms = [(first_ms, grid.load(degrees))], first_ms
    if rng.random() < 0.25:
        return wave(hz, (first_ms, rotating(grid, ramp((first_ms, 60), (last_ms, rng.choice((120, 200, 330)))))))
    kind = "load"
    while (ms := ms + rng.uniform(20, 110)) < last_ms:
        opens = kind == "fault" and rng.random() < 0.5
        kind = "open" if opens else rng.choice(("fault", "fault", "fuse", "open", "load", "dead"))
        if kind == "fault":
            place = rng.choice((-0.5, -0.1, 0.02, 0.3, 0.7, 0.95, 1.1))
            six = grid.fault(rng.choice(KINDS), place, degrees, rng.choice((0.01, 0.01, 5, 30)))
        elif kind == "fuse":
            lost = rng.randrange(3, 6)
            six = tuple(0 if k == lost else x for k, x in enumerate(grid.load(degrees)))
        elif kind == "dead":
            six = (*grid.fault("ABC", 0.0, degrees)[:3], 0, 0, 0)
        else:
            six = grid.open(degrees) if kind == "open" else grid.load(degrees)
        pieces.append((ms, six, rng.choice((10, 30, 60))))
    return wave(hz, *pieces)


def stream_of(rng, number, signal, rate, first, last):
    few = lambda most: sorted(rng.randint(first, last) for _ in range(rng.randrange(most)))
    gaps = {n + k for n in few(3) for k in range(rng.choice((1, 1, 3, 300)))}
    quality = {n: {rng.randrange(8): rng.choice((1, 3, 0x800, 0x40))} for n in few(3)}
    change = {n: lambda six: [2 ** 28, *six[1:]] for n in few(2)}
    sets = make.sample_sets(f"MU{number:02}", signal, rate, first, last, missing=gaps, quality=quality, change=change,
                            synch={n: rng.choice((0, 1)) for n in few(3)})
    return make.framed(sets, rng.choice((1, 2, 2, 4, 8, 16)), vlan=rng.choice((None, 0x800A)))


def broken(rng, body):
    """A frame with some byte changed, a piece cut out of it, or its end cut off."""
    body, at = bytearray(body), rng.randrange(12, 60)
    if rng.random() < 0.6:
        body[at] = rng.randrange(256)
    elif rng.random() < 0.5:
        del body[at:at + rng.randint(1, 4)]
    else:
        del body[at:]
    return bytes(body)


def pcapng(rng, frames):
    """The frames in sections of either byte order, as enhanced and simple packets of an Ethernet interface, with packets of
    another interface and other blocks between them."""
    out, order, own = [], "<", 0
    for k, (_, body) in enumerate(frames):
        if k == 0 or rng.random() < 0.005:
            order, own = rng.choice("<>"), rng.randrange(2)
            out.append(sv.block(order, 0x0A0D0D0A, struct.pack(order + "IHHq", 0x1A2B3C4D, 1, 0, -1)))
            out += [sv.block(order, 1, struct.pack(order + "HHI", 1 if n == own else 113, 0, 0)) for n in (0, 1)]
        if rng.random() < 0.02:
            out.append(sv.block(order, rng.choice((2, 4, 5, 0xBAD)), bytes(4 * rng.randrange(9))))
        if rng.random() < 0.02:
            out.append(sv.block(order, 6, struct.pack(order + "IIIII", 1 - own, 0, 0, len(body), len(body)) + body))
        if own == 0 and rng.random() < 0.3:
            out.append(sv.block(order, 3, struct.pack(order + "I", len(body)) + body))
        else:
            out.append(sv.block(order, 6, struct.pack(order + "IIIII", own, 0, 0, len(body), len(body)) + body))
    return b"".join(out)


def case(seed):
    """The settings' text and the capture's bytes of one case."""
    rng = random.Random(seed)
    rate, nominal = rng.choice(((4800, 50), (4800, 60), (4000, 50)))
    version = rng.choice((1, 2))
    grid = rng.choice((GRID_110, GRID_220, GRID_400))
    first = rng.choice((0, 0, rate - 500))
    last = first + rng.randint(400, 2600)
    count = rng.choice((1, 1, 1, 2, 3))
    text = settings("random", *(line_keys(rng, k, grid, version) for k in range(1, count + 1)), rate=rate, nominal=nominal,
                    version=version, heartbeat_ms=rng.choice((100, 200, 1000)))
    signals = [signal_of(rng, grid, nominal, 1000 * first / rate, 1000 * last / rate) for _ in range(count)]
    frames = together(*(stream_of(rng, k, signal, rate, first, last) for k, signal in enumerate(signals, 1)))
    for _ in range(rng.randrange(6)):
        at = rng.randrange(len(frames) - 1)
        how = rng.random()
        if how < 0.4:
            frames.insert(at, (frames[at][0], broken(rng, frames[at][1])))
        elif how < 0.7:
            frames.insert(at + rng.randrange(1, 9), frames[at])
        else:
            frames[at:at + 2] = frames[at + 1], frames[at]
    magic = rng.choice((sv.LITTLE_MICRO, sv.BIG_MICRO, sv.LITTLE_NANO, sv.BIG_NANO, None))
    capture = pcap(frames, make.START, rate, magic) if magic else pcapng(rng, frames)
    return text, capture[:-rng.randint(1, 90)] if rng.random() < 0.1 else capture


def studies(rng):
    """The words of some studies behind the log's name."""
    curve, pickup, tms = rng.choice(("very", "extremely")), rng.choice((1, 50_000, 200_000, 800_000)), rng.choice((25, 60, 1500))
    times = rng.choice((1, 20, 60)), rng.choice((1, 10, 40)), rng.choice((1, 50, 300))
    return [("backup", curve, str(pickup), str(tms)), ("locate",), ("guard", *map(str, times))]


def studied(seed, folder):
    """The studies by whose logs or notes the two programs differ."""
    settings_path, capture_path, log = (f"{folder}/{name}" for name in ("settings.toml", "capture.pcap", "study.log"))
    with open(capture_path, "rb") as file:
        stop = sv.records(file.read())[1] or ""
    wrong = []
    for kind, *words in studies(random.Random(f"{seed}/studies")):
        done = subprocess.run([RELAY, kind, settings_path, capture_path, log, *words], capture_output=True, text=True)
        with open(log, encoding="ascii") as file:
            ours = file.read()
        if (done.stderr.strip(), ours) != (stop, plain_studies.run(kind, settings_path, capture_path, *words)):
            wrong.append(" ".join((kind, *words)))
    return wrong


def compare(seed, folder):
    """None where both programs agree, else what differs."""
    text, capture = case(seed)
    paths = {name: f"{folder}/{name}" for name in ("settings.toml", "capture.pcap", "goose.pcap", "events.log")}
    with open(paths["settings.toml"], "w", encoding="ascii") as file:
        file.write(text)
    with open(paths["capture.pcap"], "wb") as file:
        file.write(capture)
    done = subprocess.run([RELAY, "replay", *paths.values()], capture_output=True, text=True)
    note = done.stderr.strip()
    if note.startswith("settings refused"):
        return note
    goose, log = plain_replay.replay(paths["settings.toml"], paths["capture.pcap"])
    stop = sv.records(capture)[1] or ""
    with open(f"{folder}/plain.log", "w", encoding="ascii") as file:
        file.write(log)
    with open(f"{folder}/plain.goose.pcap", "wb") as file:
        file.write(goose)
    written = {name: open(path, "rb").read() if os.path.exists(path) else b"" for name, path in paths.items()}
    wrong = [what for what, ours, theirs in (("note", note, stop), ("log", written["events.log"], log.encode("ascii")),
                                             ("GOOSE file", written["goose.pcap"], goose)) if ours != theirs]
    wrong += studied(seed, folder)
    return ", ".join(wrong) or None


def main(seed, count, keep="."):
    seeds = [f"{seed}/{k}" for k in range(int(count))] or [seed]
    counts = {"agree": 0, "differ": 0}
    for one in seeds:
        with tempfile.TemporaryDirectory() as folder:
            found = compare(one, folder)
            counts["differ" if found else "agree"] += 1
            if found:
                kept = os.path.join(keep, "case-" + one.replace("/", "-"))
                subprocess.run(["cp", "-r", folder, kept], check=True)
                print(f"{one}: differs: {found}; kept in {kept}")
    print("compare: " + ", ".join(f"{n} {how}" for how, n in counts.items()))
    return 1 if counts["differ"] else 0


if __name__ == "__main__":
    if len(sys.argv) not in (3, 4):
        sys.exit(__doc__)
    sys.exit(main(*sys.argv[1:]))
