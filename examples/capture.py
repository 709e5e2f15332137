#!/usr/bin/env python3
"""Makes the captures of two examples: Python's standard library alone.

    capture.py first_path FILE      writes the capture of examples/first_path
    capture.py ground_fault FILE    writes the capture of examples/ground_fault

A reader who wants another capture writes another function beside `first_path`: a list of frames, each with the number of
the sample at which it comes, made by `sv.frame([sample_set(..), ..])`. Each record gets the time of that sample, counted
from the settings' start, so that Wireshark's time column shows it and mergecap sorts by it.
"""
import sys

import sampled_values as sv
from plain_relay import sine_table

START = 1704067200      # 2024-01-01T00:00:00Z, the settings' start
RATE = 4800
SINE = sine_table(96)


def sine(k):
    """The relay's sine table of 96 samples a cycle, scale 16384."""
    return SINE[k % 96]


def cosine(k):
    return sine(k + 24)


def healthy(j):
    """No load, three balanced voltages: IA, IB, IC in mA, UA, UB, UC in 10 mV."""
    return [0, 0, 0, 500 * cosine(j), 500 * cosine(j - 32), 500 * cosine(j + 32)]


def fault(j):
    """Phase A to ground: UA falls to a half, and IA lags it by a quarter of a cycle. UA / IA is 10 ohms, so with a
    compensated current of 1.6 IA the loop sees 6.25 ohms, half of the reach."""
    return [250 * sine(j), 0, 0, 250 * cosine(j), 500 * cosine(j - 32), 500 * cosine(j + 32)]


def sample_set(counter, six, conf_rev=1, quality=None):
    """A sample set of MU01. The neutral voltage is 0 and not marked as derived."""
    return sv.asdu("MU01", counter, sv.data(six, {sv.UN: 0, **(quality or {})}, neutral_voltage=False),
                   conf_rev=conf_rev)


def first_path():
    """Healthy samples from counter 4752 over the second's wrap, and then what can go wrong with a stream."""
    frames = [(n, sv.frame([sample_set(n % RATE, healthy(n))])) for n in range(4752, 4952)]
    frames += [
        (4951, sv.frame([sample_set(151, healthy(4951))])),              # the last counter once more
        (4951, sv.frame([sample_set(100, healthy(4900))])),              # 51 samples behind it
        (4951, sv.frame([sample_set(4800, healthy(0))])),                # out of range
        (4952, sv.frame([sample_set(152, healthy(4952), conf_rev=7)])),
        (4952, sv.frame([sample_set(152, healthy(4952))])[:-1]),         # its length counts one byte more than was captured
    ]
    frames += [(4800 + c, sv.frame([sample_set(c, healthy(c)), sample_set(c + 1, healthy(c + 1))]))
               for c in range(155, 255, 2)]                              # 3 are missing
    frames.append((5055, sv.frame([sample_set(255, healthy(255), quality={sv.IA: 1})])))     # IA is invalid
    return frames


def ground_fault():
    """One second: healthy, a fault from 1464 to 3863, healthy again."""
    return [(c, sv.frame([sample_set(c, fault(c) if 1464 <= c < 3864 else healthy(c))])) for c in range(RATE)]


if __name__ == "__main__":
    examples = {"first_path": first_path, "ground_fault": ground_fault}
    if len(sys.argv) != 3 or sys.argv[1] not in examples:
        sys.exit(__doc__)
    with open(sys.argv[2], "wb") as file:
        file.write(sv.pcap(examples[sys.argv[1]](), START, RATE))
