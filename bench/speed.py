#!/usr/bin/env python3
"""Measures the built program: Python's standard library, valgrind, md5sum, and for --sizes a C compiler.

    speed.py                  the whole table
    speed.py --quick          without the times
    speed.py --parts          instead, what the parts of a healthy and of the dearest sample set cost
    speed.py --sizes          instead, the calls of memset, memcpy and memmove above 1024 bytes, by record
    speed.py .. --program P   of the program P, in place of the one that stands in crates/relay_main/out

For each row it makes captures of two lengths, runs the program over both under callgrind, and divides the difference of
the instructions by that of the sample sets, so that what a run costs once doesn't count. It replays a longer capture beside
md5sum of the same file, five times in turn, and takes the best of each; and it tells the greatest resident memory of that
run. docs/SPEED.md says how to read it.
"""
import os
import re
import subprocess
import sys
import tempfile
import time

TOP = os.path.dirname(os.path.dirname(os.path.abspath(__file__)))
RELAY = f"{TOP}/crates/relay_main/out/relay_main"
sys.path.insert(0, f"{TOP}/examples")

import sampled_values as sv
from capture import RATE, START, cosine, healthy, sine

# Without these a byte that `rep stos` or `rep movs` handles counts as an instruction.
TUNABLES = ("glibc.cpu.x86_rep_stosb_threshold=1000000000:glibc.cpu.x86_rep_movsb_threshold=1000000000")

# ------------------------------------------------------------------------------------------------ what is measured


def fault(j):
    """A fault in all three phases, no two alike, so that each of the six loops carries current."""
    return [250 * sine(j), 200 * sine(j - 32), 225 * sine(j + 32),
            100 * cosine(j), 110 * cosine(j - 32), 120 * cosine(j + 32)]


def zone(shape, direction, reach, delay_ms):
    more = "tilt = 30\nslope = 167\nback_x = 2000\n" if shape == "quad" else ""
    return f"""
[[line.zone]]
shape = "{shape}"
dir = "{direction}"
reach_r = {reach // 2}
reach_x = {reach}
{more}delay_ms = {delay_ms}
trip = true
swing_block = true
load_block = true
"""


ONE_ZONE = """
[[line.zone]]
shape = "mho"
dir = "forward"
reach_r = 0
reach_x = 12500
delay_ms = 0
trip = true
swing_block = false
load_block = false
"""
TABLES = """
[line.mimic]
a = 15646
b = 15573

[line.swing]
outer_r = 70000
outer_x = 70000
inner_r = 50000
inner_x = 50000
pass_ms = 30
max_ms = 1000
i2_share = 150

[line.fuse]
u2_min = 2000000
i2_max = 150000
hold_ms = 100

[line.load]
r = 60000
slope = 500
"""
FIVE_ZONES = (zone("mho", "forward", 12500, 0) + zone("quad", "forward", 20000, 100) + zone("mho", "forward", 30000, 300)
              + zone("quad", "reverse", 8000, 500) + zone("quad", "none", 60000, 800))

KINDS = {   # signal, what stands between the line's keys and its zones, zones
    "healthy": (healthy, "", ONE_ZONE),
    "fault": (fault, "", ONE_ZONE),
    "fault, all tables, five zones": (fault, TABLES, FIVE_ZONES),
}


def settings(kind, lines):
    _, tables, zones = KINDS[kind]
    text = f'version = 1\nstart = "2024-01-01T00:00:00Z"\nrate = {RATE}\nnominal = 50\nheartbeat_ms = 1000\n'
    for k in range(1, lines + 1):
        text += f"""
[[line]]
name = "L{k}"
sv_id = "MU{k:02}"
conf_rev = 1
line_r = 1000
line_x = 15000
k0_re = 600
k0_im = 0
i_min = 200000
i0_min = 100000
dir_i2 = 100000
mem_u = 1000000
mem_ms = 200
trip_min_ms = 100
open_i = 50000
open_ms = 20
{tables}
[line.goose]
dst = "01-0C-CD-01-00-{k:02X}"
src = "02-00-00-00-00-02"
appid = {k}
gocb_ref = "P{k}/LLN0$GO$G1"
dat_set = "P{k}/LLN0$DS1"
go_id = "G{k}"
conf_rev = 1
{zones}"""
    return text


def write_capture(path, kind, lines, sets, numbers):
    """A capture of so many numbers of each line, with so many sample sets a frame, the lines' frames in turn."""
    signal = KINDS[kind][0]
    cycle = [sv.data(signal(j)) for j in range(96)]
    with open(path, "wb") as file:
        file.write(sv.pcap([], START, RATE))
        for first in range(0, numbers, sets):
            for k in range(1, lines + 1):
                body = sv.frame([sv.asdu(f"MU{k:02}", n % RATE, cycle[n % 96]) for n in range(first, first + sets)])
                file.write(sv.pcap([(first, body)], START, RATE)[24:])


# ------------------------------------------------------------------------------------------------ measuring


class Refused(Exception):
    """The program refuses these settings; the text is its note."""


def words(folder, capture):
    return [RELAY, "replay", f"{folder}/settings.toml", capture, f"{folder}/goose.pcap", f"{folder}/events.log"]


def callgrind(folder, capture):
    """Instructions of a run, and callgrind's file."""
    found = f"{folder}/callgrind.out"
    command = ["valgrind", "--tool=callgrind", f"--callgrind-out-file={found}", *words(folder, capture)]
    done = subprocess.run(command, env={**os.environ, "GLIBC_TUNABLES": TUNABLES}, capture_output=True, text=True)
    note = [line for line in done.stderr.splitlines() if not line.startswith("==")]
    if done.returncode:
        raise Refused(" ".join(note) or f"status {done.returncode}")
    with open(found, encoding="utf-8", errors="replace") as file:
        return int(re.search(r"^(?:summary|totals): (\d+)", file.read(), re.M)[1]), found


def lengths(lines, sets):
    """Two lengths in numbers a line: whole cycles in whole frames, behind the first two cycles."""
    unit = 96 * sets
    short = unit * max(2, 960 // lines // unit)
    return short, short + unit * max(1, 4800 // lines // unit)


def instructions(folder, kind, lines, sets):
    counts = []
    for numbers in lengths(lines, sets):
        write_capture(f"{folder}/capture.pcap", kind, lines, sets, numbers)
        counts.append((callgrind(folder, f"{folder}/capture.pcap")[0], numbers * lines))
    (i0, n0), (i1, n1) = counts
    return (i1 - i0) / (n1 - n0)


def seconds_of(command):
    began = time.perf_counter()
    status = subprocess.run(command, stdout=subprocess.DEVNULL, stderr=subprocess.DEVNULL).returncode
    if status:
        raise Refused(f"status {status}")
    return time.perf_counter() - began


def memory_of(command):
    """The greatest resident memory of a run in KiB, as the kernel tells it while the run lasts."""
    child, most = subprocess.Popen(command, stdout=subprocess.DEVNULL, stderr=subprocess.DEVNULL), 0
    while child.poll() is None:
        try:
            # until the program stands in the process, what is told is this script's
            is_relay = os.path.samefile(f"/proc/{child.pid}/exe", RELAY)
            with open(f"/proc/{child.pid}/status", encoding="ascii") as file:
                told = re.search(r"VmHWM:\s+(\d+)", file.read())
        except OSError:                                          # it ended meanwhile
            continue
        most = max(most, int(told[1]) if is_relay and told else 0)
        time.sleep(0.001)
    return most


def times(folder, kind, lines, sets):
    """Nanoseconds a sample set of the program and of md5sum, best of five in turn, and the program's memory in KiB."""
    numbers = 288_000 // lines // sets * sets
    path = f"{folder}/long.pcap"
    write_capture(path, kind, lines, sets, numbers)
    commands, best = (words(folder, path), ["md5sum", path]), [10 ** 9, 10 ** 9]
    for _ in range(5):
        best = [min(old, seconds_of(command)) for old, command in zip(best, commands)]
    memory = memory_of(commands[0])
    os.remove(path)
    return *(10 ** 9 * s / (numbers * lines) for s in best), memory


def table(quick):
    print("| Signal and settings | Lines | Sets a frame | Instructions a sample set |"
          + ("" if quick else " ns a sample set | md5sum, ns | Ratio | Memory, KiB |"))
    print("|---|---|---|---|" + ("" if quick else "---|---|---|---|"))
    for kind in KINDS:
        for lines in (1, 16):
            for sets in (1, 2, 8):
                with tempfile.TemporaryDirectory() as folder:
                    with open(f"{folder}/settings.toml", "w", encoding="ascii") as file:
                        file.write(settings(kind, lines))
                    try:
                        row = f"| {kind} | {lines} | {sets} | {instructions(folder, kind, lines, sets):.0f} |"
                        if not quick:
                            own, md5, memory = times(folder, kind, lines, sets)
                            row += f" {own:.0f} | {md5:.0f} | {own / md5:.2f} | {memory} |"
                    except Refused as error:
                        row = f"| {kind} | {lines} | {sets} | {error} |" + ("" if quick else " | | | |")
                print(row, flush=True)


def parts():
    """Inclusive instructions a sample set of the program's functions, by the difference of two lengths."""
    for kind, lines, sets in (("healthy", 1, 1), ("fault", 1, 1), ("fault, all tables, five zones", 1, 8)):
        print(f"\n{kind}, {lines} line, {sets} sets a frame: instructions a sample set, with what is called")
        with tempfile.TemporaryDirectory() as folder:
            with open(f"{folder}/settings.toml", "w", encoding="ascii") as file:
                file.write(settings(kind, lines))
            found = []
            try:
                for numbers in lengths(lines, sets):
                    write_capture(f"{folder}/capture.pcap", kind, lines, sets, numbers)
                    path = callgrind(folder, f"{folder}/capture.pcap")[1]
                    said = subprocess.run(["callgrind_annotate", "--inclusive=yes", "--threshold=100", path],
                                          capture_output=True, text=True).stdout
                    costs = {}
                    for line in said.splitlines():
                        at = re.match(r"\s*([\d,]+) \([^)]*\)\s+(.*)", line)
                        if at and "PROGRAM TOTALS" not in line:
                            name = re.sub(r" \[.*", "", at[2]).split(":", 1)[-1]
                            costs[name] = costs.get(name, 0) + int(at[1].replace(",", ""))
                    found.append((costs, numbers * lines))
            except Refused as error:
                print(f"    {error}")
                continue
            (a, n0), (b, n1) = found
            each = {name: (b[name] - a.get(name, 0)) / (n1 - n0) for name in b}
            for name, cost in sorted(each.items(), key=lambda x: -x[1])[:40]:
                if cost >= 5:
                    print(f"    {cost:8.0f}  {name}")


COUNTER = r"""
#include <stdio.h>
#include <stddef.h>
static const char *const names[3] = {"memset", "memcpy", "memmove"};
static unsigned long calls[3], times[3][64];
static size_t sizes[3][64];
static void note(int k, size_t n) {
    calls[k]++;
    for (int j = 0; n > 1024 && j < 64; j++) {
        if (sizes[k][j] == 0) sizes[k][j] = n;
        if (sizes[k][j] == n) { times[k][j]++; break; }
    }
}
void *memset(void *p, int c, size_t n) {
    note(0, n);
    for (volatile char *q = p; n--;) *q++ = (char)c;
    return p;
}
void *memcpy(void *d, const void *s, size_t n) {
    note(1, n);
    const char *r = s;
    for (volatile char *q = d; n--;) *q++ = *r++;
    return d;
}
void *memmove(void *d, const void *s, size_t n) {
    note(2, n);
    volatile char *q = d;
    const char *r = s;
    if (q < r) while (n--) *q++ = *r++;
    else while (n--) q[n] = r[n];
    return d;
}
__attribute__((destructor)) static void tell(void) {
    for (int k = 0; k < 3; k++) {
        fprintf(stderr, "sizes %s 0 %lu\n", names[k], calls[k]);
        for (int j = 0; j < 64 && sizes[k][j]; j++) fprintf(stderr, "sizes %s %zu %lu\n", names[k], sizes[k][j], times[k][j]);
    }
}
"""


def sizes():
    """Calls of memset, memcpy and memmove a record, and those above 1024 bytes by their size, by the difference of two
    lengths."""
    print("| Signal and settings | Sets a frame | Call | Calls a record | Above 1024 bytes: calls of bytes |\n|---|---|---|---|---|")
    with tempfile.TemporaryDirectory() as folder:
        with open(f"{folder}/sizes.c", "w", encoding="ascii") as file:
            file.write(COUNTER)
        subprocess.run(["cc", "-O1", "-fno-builtin", "-shared", "-fPIC", "-o",
                        f"{folder}/sizes.so", f"{folder}/sizes.c"], check=True)
        for kind, lines, sets in (("healthy", 1, 1), ("healthy", 1, 8), ("fault", 1, 1), ("fault, all tables, five zones", 1, 8)):
            with open(f"{folder}/settings.toml", "w", encoding="ascii") as file:
                file.write(settings(kind, lines))
            try:
                print_sizes(kind, sets, [sizes_of(folder, kind, lines, sets, n) for n in lengths(lines, sets)])
            except Refused as error:
                print(f"| {kind} | {sets} | {error} | | |")


def sizes_of(folder, kind, lines, sets, numbers):
    """The count of each call and size, 0 for all sizes together, and the records."""
    write_capture(f"{folder}/capture.pcap", kind, lines, sets, numbers)
    done = subprocess.run(words(folder, f"{folder}/capture.pcap"), capture_output=True, text=True,
                          env={**os.environ, "LD_PRELOAD": f"{folder}/sizes.so"})
    told = re.findall(r"^sizes (\w+) (\d+) (\d+)$", done.stderr, re.M)
    if done.returncode or not told:
        raise Refused(done.stderr.splitlines()[0] if done.stderr else "nothing told")
    return {(name, int(size)): int(count) for name, size, count in told}, numbers * lines // sets


def print_sizes(kind, sets, found):
    (a, n0), (b, n1) = found
    each = {key: (b[key] - a.get(key, 0)) / (n1 - n0) for key in b}
    for name in ("memset", "memcpy", "memmove"):
        large = [f"{count:.1f} of {size}" for (call, size), count in sorted(each.items()) if call == name and size and count >= 0.05]
        print(f"| {kind} | {sets} | {name} | {each[name, 0]:.1f} | {', '.join(large) or 'none'} |")


if __name__ == "__main__":
    asked = sys.argv[1:]
    if asked[-2:-1] == ["--program"]:
        RELAY = os.path.abspath(asked[-1])
        del asked[-2:]
    if not os.access(RELAY, os.X_OK):
        sys.exit(f"speed.py: {RELAY} isn't built; ./demo builds it")
    if asked not in ([], ["--quick"], ["--parts"], ["--sizes"]):
        sys.exit(__doc__)
    if asked == ["--parts"]:
        parts()
    elif asked == ["--sizes"]:
        sizes()
    else:
        table(asked == ["--quick"])
