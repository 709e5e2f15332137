"""Captures and frames of sampled values, read and written: Python's standard library alone.

Outside what is proved. `capture.py` and `scenarios/make.py` write with it; `explain.py` and `picture.py` read with it, and
read every capture that the relay reads: pcap in both byte orders with times in micro- or nanoseconds, and pcapng with
several sections and interfaces. docs/FORMATS.md has the formats. What isn't a capture is refused by `Unreadable`, and so
is a capture without a sample set that is asked for.
"""
import struct

IA, IB, IC, IN, UA, UB, UC, UN = range(8)       # the channels of a data set; currents count 1 mA, voltages 10 mV
USED = (IA, IB, IC, UA, UB, UC)                 # the ones that the relay uses
DERIVED = 0x2000                                # quality: the value is computed from others
MOST_BODY, MOST_KEPT, MOST_BLOCK = 262_144, 2048, 16_777_216
LITTLE_MICRO, BIG_MICRO, LITTLE_NANO, BIG_NANO = "d4c3b2a1", "a1b2c3d4", "4d3cb2a1", "a1b23c4d"


class Unreadable(Exception):
    """A file that can't be read; the text says why."""


# ------------------------------------------------------------------------------------------------ captures, read


def records(data):
    """The captured bodies of a capture, and what stops it: None at its end, else a text as the relay's note has it."""
    if data[:4] == b"\x0a\x0d\x0d\x0a":
        return pcapng_records(data)
    return pcap_records(data)


def pcap_records(data):
    orders = {bytes.fromhex(m): ">" if m.startswith("a1") else "<"
              for m in (LITTLE_MICRO, BIG_MICRO, LITTLE_NANO, BIG_NANO)}
    order = orders.get(data[:4])
    if order is None or len(data) < 24:
        raise Unreadable("not a capture" + guess(data))
    major, minor = struct.unpack_from(order + "HH", data, 4)
    link = struct.unpack_from(order + "I", data, 20)[0] & 0xFFFF
    if (major, minor) != (2, 4) or link != 1:
        raise Unreadable(f"not a capture: a pcap of version {major}.{minor} and link type {link}; wanted are 2.4 and 1, Ethernet")
    bodies, at = [], 24
    while at < len(data):
        size = struct.unpack_from(order + "I", data, at + 8)[0] if at + 16 <= len(data) else 0
        if size > MOST_BODY:
            return bodies, f"capture damaged after {len(bodies)} records length {size}"
        if at + 16 + size > len(data):
            return bodies, f"capture cut after {len(bodies)} records"
        bodies.append(data[at + 16:at + 16 + size])
        at += 16 + size
    return bodies, None


KINDS = (
    (b"\x1f\x8b", "a gzip file; zcat unpacks it"), (b"\x28\xb5\x2f\xfd", "a zstd file; zstdcat unpacks it"),
    (b"\xfd7zXZ", "an xz file; xzcat unpacks it"), (b"PK\x03\x04", "a zip file; unzip unpacks it"),
    (b"snoop\0", "a snoop file; editcap -F pcap turns it into a pcap"),
)


def guess(data):
    """What a file may be that is no capture."""
    if len(data) < 24:
        return f": it has {len(data)} bytes, and a capture has 24 at least"
    return next((": it looks like " + text for magic, text in KINDS if data.startswith(magic)), "")


ORDERS = {b"\x4d\x3c\x2b\x1a": "<", b"\x1a\x2b\x3c\x4d": ">"}      # by a section's byte-order magic


def pcapng_records(data):
    order = ORDERS.get(data[8:12])
    if len(data) < 24 or order is None or struct.unpack_from(order + "H", data, 12)[0] != 1:
        raise Unreadable("not a capture: " + ("a pcapng has 24 bytes at least" if len(data) < 24 else "a pcapng of another version"))
    bodies, at, interfaces = [], 0, []
    while at < len(data):
        kind_bytes = data[at:at + 4]
        section = kind_bytes == b"\x0a\x0d\x0d\x0a"
        if len(data) - at < (12 if section else 8):
            return bodies, f"capture cut after {len(bodies)} records"
        before = order
        if section:
            order = ORDERS.get(data[at + 8:at + 12])
        kind, total = struct.unpack_from((order or before) + "II", data, at)
        damaged = f"capture damaged after {len(bodies)} records length {total}"
        if order is None or total % 4 or not 12 <= total <= MOST_BLOCK:
            return bodies, damaged
        if at + total > len(data):
            return bodies, f"capture cut after {len(bodies)} records"
        block = data[at:at + total]
        if struct.unpack_from(order + "I", block, total - 4)[0] != total:
            return bodies, damaged
        at += total
        if section:
            if total < 28 or struct.unpack_from(order + "H", block, 12)[0] != 1:
                return bodies, damaged
            interfaces = []
        elif kind == 1:
            if total < 20 or len(interfaces) >= 256:
                return bodies, damaged
            link, _, snap = struct.unpack_from(order + "HHI", block, 8)
            interfaces.append((link, snap))
        elif kind in (3, 6):
            packet = packet_of(order, kind, block, interfaces)
            if packet is None:
                return bodies, damaged
            link, body = packet
            if link == 1:
                bodies.append(body)
    return bodies, None


def packet_of(order, kind, block, interfaces):
    """Link type and captured bytes of an enhanced (6) or a simple (3) packet; none where the block isn't sound."""
    head = 32 if kind == 6 else 16
    if len(block) < head:
        return None
    if kind == 6:
        number, _, _, size, _ = struct.unpack_from(order + "IIIII", block, 8)
    else:
        number, size = 0, struct.unpack_from(order + "I", block, 8)[0]
    if number >= len(interfaces):
        return None
    link, snap = interfaces[number]
    if kind == 3 and 0 < snap < size:
        size = snap
    if size > MOST_BODY or (head + size + 3) // 4 * 4 > len(block):
        return None
    start = head - 4
    return link, block[start:start + size]


# ------------------------------------------------------------------------------------------------ frames, read


class Malformed(Exception):
    """A frame that fails one of the reader's six layers; the text is the layer's word in the log."""


class SampleSet:
    """One ASDU: its svID, counter, configuration revision, clock and sample data."""

    def __init__(self, sv_id, counter, conf_rev, synch, data):
        self.sv_id, self.counter, self.conf_rev, self.synch, self.data = sv_id, counter, conf_rev, synch, data

    def channels(self):
        """Eight pairs of a value and a quality word; none where the data isn't 64 bytes."""
        return list(struct.iter_unpack(">iI", self.data)) if len(self.data) == 64 else None


def sample_sets(body):
    """The sample sets of a captured frame, none of other traffic. A malformed frame raises `Malformed`."""
    at = 12
    if body[12:14] == b"\x81\x00":
        at = 16
    if body[at:at + 2] != b"\x88\xba":
        return []
    at += 2
    if len(body) < at + 8:
        raise Malformed("header")
    length = struct.unpack_from(">H", body, at + 2)[0]
    if length < 8 or at + length > len(body):
        raise Malformed("length")
    if len(body) > MOST_KEPT:
        raise Malformed("long")
    count, sequence = pdu_of(body[at + 8:at + length])
    sets = elements(sequence, "count", 16)
    if not 1 <= count <= 16 or len(sets) != count or any(tag != 0x30 for tag, _ in sets):
        raise Malformed("count")
    return [sample_set_of(contents) for _, contents in sets]


def elements(data, word, most):
    """The elements (tag, contents) that fill the bytes; `word` is the layer that fails where there are none."""
    found = []
    while data:
        if len(found) == most or data[0] & 0x1F == 0x1F or len(data) < 2:
            raise Malformed(word)
        size, start = data[1], 2
        if size >= 0x80:
            wide = size - 0x80
            if not 1 <= wide <= 4 or len(data) < 2 + wide:
                raise Malformed(word)
            size, start = int.from_bytes(data[2:2 + wide], "big"), 2 + wide
        if start + size > len(data):
            raise Malformed(word)
        found.append((data[0], data[start:start + size]))
        data = data[start + size:]
    return found


def pdu_of(apdu):
    """The number of sample sets that the PDU tells, and the bytes of its sequence."""
    outer = elements(apdu, "pdu", 1)
    if [tag for tag, _ in outer] != [0x60]:
        raise Malformed("pdu")
    inner = elements(outer[0][1], "pdu", 3)
    if [tag for tag, _ in inner if tag != 0x81] != [0x80, 0xA2] or inner[-1][0] != 0xA2 or inner[0][0] != 0x80:
        raise Malformed("pdu")
    number = inner[0][1]
    if not 1 <= len(number) <= 4:
        raise Malformed("pdu")
    return int.from_bytes(number, "big"), inner[-1][1]


def sample_set_of(contents):
    fields, last = {}, 0x7F
    for tag, value in elements(contents, "asdu", 16):
        if tag > 0x89:
            continue
        if tag <= last or tag < 0x80:
            raise Malformed("asdu")
        fields[tag] = value
        last = tag
    sizes = {0x82: 2, 0x83: 4, 0x85: 1}
    if any(tag not in fields for tag in (0x80, 0x82, 0x83, 0x85, 0x87)) or any(len(fields[t]) != n for t, n in sizes.items()):
        raise Malformed("asdu")
    return SampleSet(fields[0x80], int.from_bytes(fields[0x82], "big"), int.from_bytes(fields[0x83], "big"),
                     fields[0x85][0], fields[0x87])


def heard(bodies):
    """All sample sets of a capture in their order; malformed frames are passed over."""
    for body in bodies:
        try:
            sets = sample_sets(body)
        except Malformed:
            continue
        yield from sets


# ------------------------------------------------------------------------------------------------ frames, written


def head(tag, length, wide=0):
    """Tag and length in the shortest form, or with `wide` bytes of length."""
    if not wide and length < 0x80:
        return bytes([tag, length])
    wide = max(wide, (length.bit_length() + 7) // 8)
    return bytes([tag, 0x80 + wide]) + length.to_bytes(wide, "big")


def element(tag, contents, wide=0):
    return head(tag, len(contents), wide) + contents


def data(six_counts, quality={}, sums=True, neutral_voltage=True):
    """The 64 bytes of a data set. Neutral current and voltage are the sums of the phases, or 0, and are marked as
    derived; the relay doesn't use them."""
    i, u = six_counts[:3], six_counts[3:]
    values = [*i, sum(i) if sums else 0, *u, sum(u) if sums and neutral_voltage else 0]
    words = {IN: DERIVED, UN: DERIVED, **quality}
    return b"".join(struct.pack(">iI", v, words.get(k, 0)) for k, v in enumerate(values))


def asdu(sv_id, counter, samples, conf_rev=1, synch=2, extra=()):
    """One sample set. `extra` has optional fields as (tag, contents)."""
    fields = [(0x80, sv_id.encode()), (0x82, struct.pack(">H", counter)), (0x83, struct.pack(">I", conf_rev)),
              (0x85, bytes([synch])), (0x87, samples), *extra]
    return element(0x30, b"".join(element(t, c) for t, c in sorted(fields, key=lambda f: f[0])))


def frame(asdus, appid=0x4000, vlan=None, behind=b"", security=None, count=None, wide=0):
    """An Ethernet frame. `vlan` is the tag word, `behind` what follows the counted length."""
    number = len(asdus) if count is None else count
    pdu = element(0x60, element(0x80, bytes([number])) + (b"" if security is None else element(0x81, security))
                  + element(0xA2, b"".join(asdus), wide), wide)
    return (bytes.fromhex("010ccd040001020000000001") + (b"" if vlan is None else struct.pack(">HH", 0x8100, vlan))
            + struct.pack(">HHHHH", 0x88BA, appid, 8 + len(pdu), 0, 0) + pdu + behind)


# ------------------------------------------------------------------------------------------------ captures, written


def pcap(frames, start, rate, magic=LITTLE_MICRO):
    """A pcap file of frames (number of the first sample set, bytes); each record carries the time of that number,
    counted from `start` in seconds since 1970."""
    order = ">" if magic.startswith("a1") else "<"
    fraction = 10 ** 9 if "3c" in magic else 10 ** 6
    out = [bytes.fromhex(magic), struct.pack(order + "HHIIII", 2, 4, 0, 0, 65535, 1)]
    for n, body in frames:
        n = int(n)
        time = start + n // rate, n % rate * fraction // rate
        out.append(struct.pack(order + "IIII", *time, len(body), len(body)))
        out.append(body)
    return b"".join(out)


def block(order, kind, contents):
    """A pcapng block: type, total length, contents filled up to four bytes, total length."""
    contents += bytes(-len(contents) % 4)
    total = struct.pack(order + "I", len(contents) + 12)
    return struct.pack(order + "I", kind) + total + contents + total
