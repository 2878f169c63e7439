#!/usr/bin/env python3
"""Writes the registers that the stored runs read. Run from the repository's root; what it writes is committed."""
import struct


def field(tag, value):
    return bytes([tag]) + struct.pack(">H", len(value)) + value


def order(identifier, side, kind, tif, qdp, shares, limit, offset=0, short=False):
    name = identifier.encode()
    out = field(1, name)
    if short:
        out += field(6, name[:12].ljust(12))
    out += field(2, bytes([side, kind, tif, qdp]))
    out += field(3, struct.pack(">I", shares)) + field(4, struct.pack(">I", limit))
    if offset:
        out += field(5, struct.pack(">h", offset))
    return out


MORNING = [
    order("A1", 1, 4, 1, 1, 200, 1001, -1),
    order("A2", 2, 4, 1, 1, 200, 1000, 1),
    order("BROKER7-20261117-001", 1, 1, 1, 0, 100, 1000),
    order("BROKER7-20261117-002", 2, 1, 1, 0, 1000000, 2000000, short=True),
    order("B3", 1, 2, 1, 0, 1, 1, short=True),
    order("B4", 2, 2, 2, 0, 350, 1004),
    order("C5", 1, 3, 1, 0, 500, 1002, -100),
    order("C6", 2, 3, 1, 1, 500, 999, 100, short=True),
    order("C7", 1, 4, 1, 0, 300, 1005, 3),
    order("C8", 2, 4, 1, 0, 300, 990, -2),
    order("D9", 1, 5, 1, 0, 100, 1001),
    order("D10", 2, 5, 2, 0, 100, 1),
    order("BAD-CODE", 1, 6, 1, 0, 100, 1000),
    order("BAD-SHARES", 1, 1, 1, 0, 0, 1000),
    order("BAD-LIMIT", 2, 1, 1, 0, 100, 2000001, short=True),
    order("BAD-OFFSET", 1, 4, 1, 1, 200, 1001, -101),
    order("BAD-COMBINATION", 1, 3, 1, 1, 200, 1001, 1),
    order("E11", 1, 4, 1, 1, 100, 500, 0),
]

if __name__ == "__main__":
    with open("crates/sheet/data/morning.register", "wb") as out:
        out.write(b"".join(MORNING))
