#!/usr/bin/env python3
"""Says of each zone event and trip of a log why it came: Python's standard library alone.

    explain.py SETTINGS CAPTURE LOG [LINE]

For each `zone Z LOOP in`, `out` and `operate`, each `trip` and each `reset` it prints the loop's resistance and reactance,
its current and voltages, the zone's reach, and each condition of the zone, with the ones that changed since the sample
before. All is computed anew from the capture, in whole numbers. This is outside what is proved; it stands on the relay's
whole rules, and where these don't say what the log says, it tells so and ends with status 1.
"""
import sys

import plain_relay as rules
import sampled_values as sv


def yes(it):
    return "yes" if it else "no"


def kilo(counts, per_kilo, unit):
    """Counts as thousands of a unit, with three digits behind the point."""
    return f"{counts // per_kilo}.{counts % per_kilo * 1000 // per_kilo:03} k{unit}"


def amperes(line, p):
    return kilo(line.rms(p), 10 ** 6, "A")


def volts(line, p):
    return kilo(line.rms(p), 10 ** 5, "V")


def loop_lines(line, one, lp):
    """What the loop measures, and the phases."""
    name, (u, i) = rules.LOOPS[lp], line.loop(one, lp)
    z = line.impedance(one, lp)
    seen = "no current, so no impedance" if z is None else f"R {z[0]} X {z[1]} mOhm"
    loop_current = kilo(line.rms(i) // 1000, 10 ** 6, "A")
    yield f"loop {name}: {seen}; U {volts(line, u)}, I {loop_current}" + (" with k0" if lp < 3 else "")
    yield "phases: " + ", ".join(f"I{p} {amperes(line, i)}" for p, i in zip("ABC", one.i)) + \
        f", 3I0 {amperes(line, one.i0)}; " + ", ".join(f"U{p} {volts(line, u)}" for p, u in zip("ABC", one.u))


def reach_line(zone, part):
    if part["shape"] == "mho":
        return f"reach: a circle from 0 to R {part['reach_r']} X {part['reach_x']} mOhm, {zone['dir']}"
    return (f"reach: R up to {part['reach_r']} (slope {part['slope']}), X from -{part['back_x']} to {part['reach_x']} "
            f"(tilt {part['tilt']}) mOhm, {zone['dir']}")


def conditions(line, one, zone, lp):
    """Each condition by its name: whether it lets the loop in, and the numbers behind it."""
    part = line.part(zone, lp)
    if part is None:
        return {"part": (False, "the zone has no part for this loop")}
    if not one.ready:
        return {"ready": (False, "the last cycle isn't whole and good")}
    found = {"ready": (True, "")}
    if part["shape"] == "mho":
        value = line.mho_value(one, zone, lp)
        text = "no polarising voltage" if value is None else f"comparator {value[1]} of 1000, inside above 0" + \
            (f", by the voltage of {one.pol_age} samples before" if one.pol_age else "")
    else:
        a, b, q = line.quad_values(one, zone, lp)
        text = "no current" if q == 0 else (f"R - slope X {(1000 * a - part['slope'] * b) // (1000 * q)}, "
                                            f"X + tilt R {(1000 * b + part['tilt'] * a) // (1000 * q)}, X {b // q} mOhm")
    found["shape"] = (line.has_shape(one, zone, lp), text)
    if zone["dir"] != "none":
        sense, by = line.direction(one, lp)
        found["direction"] = (sense == zone["dir"], f"{sense} by {by}" if sense != "neither" or "no pol" not in by else by)
    if lp < 3:
        text = f"I{'ABC'[lp]} {amperes(line, one.i[lp])}, 3I0 {amperes(line, one.i0)}"
    else:
        text = f"difference of the phases {amperes(line, rules.minus(one.i[lp - 3], one.i[(lp - 2) % 3]))}"
    found["current"] = (line.has_current(one, lp), text)
    if line.line.get("fuse"):
        found["no fuse failure"] = (not one.fuse, f"3U2 {volts(line, one.u2)}, 3I2 {amperes(line, one.i2)}")
    if line.line.get("swing") and zone["swing_block"]:
        found["no swing"] = (not one.swing, f"positive sequence {line.swing_place(one)}")
    if line.line.get("load") and zone["load_block"] and lp >= 3:
        r, x, q = line.positive_impedance(one)
        found["no load"] = (not line.is_load(one), f"positive sequence R {r // q} X {x // q} mOhm" if q else "no current")
    return found


def zone_lines(line, event):
    """The lines below a zone's event, and whether the rules agree with it."""
    zone, lp, number = line.line["zones"][event.zone], event.lp, event.number
    one = line.samples[number]
    part = line.part(zone, lp)
    if one.ready and part:
        yield from loop_lines(line, one, lp)
        yield reach_line(zone, part)
    if event.what == "operate":
        samples = line.common.samples(part["delay_ms"])
        yield f"delay: inside at each of the numbers {number - samples} to {number}, {part['delay_ms']} ms"
        return
    now = conditions(line, one, zone, lp)
    earlier = line.before(number)
    before = conditions(line, earlier, zone, lp) if earlier else {}
    for name, (holds, text) in now.items():
        was = before.get(name, (False, ""))[0]
        yield f"{name}: {yes(holds)}" + (f" (was {yes(was)})" if was != holds else "") + (f", {text}" if text else "")


def agrees(line, event):
    zone, n = line.line["zones"][event.zone], event.number
    if event.what == "operate":
        return line.operates_at(n, zone, event.lp)
    inside = line.is_inside_at(n, zone, event.lp)
    return inside == (event.what == "in")


def operating(line, number):
    """The zones with `trip` and loops that operate, each as (number of the zone, zone, loop)."""
    return [(z, zone, lp) for z, zone in enumerate(line.line["zones"], 1) if zone["trip"]
            for lp in range(6) if line.operates_at(number, zone, lp)]


def last_number(line, event, holds):
    """The greatest number up to the event's at which this holds, among the taken samples."""
    return next((n for n in reversed(line.numbers) if n <= event.number and holds(n)), None)


def trip_lines(line, event):
    found = operating(line, event.number)
    yield "operating zones that trip: " + (", ".join(f"zone {z} {rules.LOOPS[lp]}" for z, _, lp in found) or "none")
    for lp in sorted({lp for _, _, lp in found}):
        yield from loop_lines(line, line.samples[event.number], lp)
    for zone, lp in ((zone, lp) for _, zone, lp in found):
        yield reach_line(zone, line.part(zone, lp))


def reset_lines(line, event):
    table, rate = line.line, line.common.rate
    last = last_number(line, event, lambda n: operating(line, n))
    alive = last_number(line, event, lambda n: not line.is_dead(n))
    yield f"last operating sample: {last}, {(event.number - last) * 1000 // rate} ms before (trip_min_ms {table['trip_min_ms']})"
    yield (f"dead line: three currents below open_i since {alive + 1}, {event.number - alive} samples "
           f"(open_ms {table['open_ms']}: {line.common.samples(table['open_ms'])} samples)")


def explain(settings_path, capture_path, log_path, wanted=None):
    settings = rules.Settings(settings_path)
    with open(capture_path, "rb") as file:
        bodies, stop = sv.records(file.read())
    sets = list(sv.heard(bodies))
    events = rules.log_lines(log_path)
    names = [wanted] if wanted else sorted({e.name for e in events})
    lines = {name: rules.Line(settings, settings.named(name), sets) for name in names}
    if stop:
        print(f"explain: {stop}; what follows is of the records before", file=sys.stderr)
    if not any(line.samples for line in lines.values()):
        raise sv.Unreadable(f"{capture_path}: no sample set of {', '.join(names) or 'a line'} in it; its svIDs are "
                            + (", ".join(sorted({ascii(s.sv_id)[1:] for s in sets})) or "none"))
    for name, line in lines.items():
        rules.expect_log_of(line, [event for event in events if event.name == name])
    differ = 0
    for event in events:
        line = lines.get(event.name)
        if line is None or not (event.is_zone or event.words in ("trip", "reset")):
            continue
        if event.is_zone and event.zone >= len(line.line["zones"]):
            raise sv.Unreadable(f"the log isn't of this capture and these settings: {event.text}")
        print(event.text)
        told = zone_lines if event.is_zone else trip_lines if event.words == "trip" else reset_lines
        for text in told(line, event):
            print("    " + text)
        if event.is_zone and not agrees(line, event):
            differ += 1
            print("    DIFFERS: by the relay's whole rules the log would not say so here")
    return differ


if __name__ == "__main__":
    if len(sys.argv) not in (4, 5):
        sys.exit(__doc__)
    try:
        status = 1 if explain(*sys.argv[1:]) else 0
    except (sv.Unreadable, OSError, KeyError, rules.tomllib.TOMLDecodeError) as error:
        sys.exit(f"explain: {error}")
    sys.exit(status)
