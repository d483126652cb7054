#!/usr/bin/env python3
"""Writes expected.txt for packets.txt, by the rules of docs/RULES.md alone.

It shares nothing with the crates and does not run them. Where the kinds of
request that are treated change, TABLE below has to change with the rules.

    python3 host/make_expected.py        (from anywhere)
"""

from pathlib import Path

HERE = Path(__file__).resolve().parent

# "The table of requests" of this version: type, subtype -> whether its data name numbers
TABLE = {(11, 1): True, (11, 2): True, (11, 18): True, (17, 1): False}


def check_field(octets):
    register = 0xFFFF
    for octet in octets:
        register ^= octet << 8
        for _ in range(8):
            out = register & 0x8000
            register = register << 1 & 0xFFFF
            if out:
                register ^= 0x1021
    return register


def word(octets, at):
    return 256 * octets[at] + octets[at + 1]


def failure(p):
    """The code, A and B of the first check that fails, in the order of the rules; None if all pass."""
    n = len(p)
    # length
    stated = word(p, 4) if n >= 6 else 0
    if n % 2 != 0 or not 12 <= n <= 248 or stated != n - 7:
        return 1, min(n, 65535), stated
    # check field
    if word(p, n - 2) != check_field(p[:-2]):
        return 2, word(p, n - 2), check_field(p[:-2])
    # header
    if word(p, 0) != 0x1810 or word(p, 2) < 0xC000:
        return 0, word(p, 0), word(p, 2)
    # data header
    if p[6] // 16 != 1 or p[9] != 0:
        return 6, word(p, 6), word(p, 8)
    # type, subtype
    kind = p[7], p[8]
    if kind[0] not in (11, 17):
        return 3, *kind
    if kind not in TABLE:
        return 4, *kind
    # data length
    data = n - 12
    if not TABLE[kind]:
        return (5, 10, data) if data != 0 else None
    if data < 2 or data != 2 + 2 * (p[10] + p[11]):
        return 5, 10, data
    # fields
    if p[10] + p[11] == 0:
        return 5, 10, 0
    apids_from = 12 + 2 * p[10]
    for at in range(12, n - 2, 2):
        least, most = (1, 4095) if at < apids_from else (0, 2047)
        if not least <= word(p, at) <= most:
            return 5, at, word(p, at)
    return None


def main():
    lines = []
    for line in (HERE / "packets.txt").read_text().splitlines():
        packet = bytes.fromhex(line.split("#")[0])
        found = failure(packet)
        told = "passed" if found is None else "%d %d %d" % found
        lines.append("%04X %s\n" % (check_field(packet[:-2]), told))
    (HERE / "expected.txt").write_text("".join(lines))


main()
