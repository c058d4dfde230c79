#!/usr/bin/env python3
"""Writes the messages of the benchmark: small (152 bytes), middle (64 KiB), large (16 MiB), as even a mix of items as KMIP's."""
import os
import sys

sys.path.insert(0, os.path.join(os.path.dirname(os.path.abspath(__file__)), '..', 'tools', 'live'))
from ttlv import date, enumeration, integer, item, octets, structure, text  # noqa: E402

SMALL = bytes.fromhex(
    '42007B010000009042007A0100000048420069010000002042006A0200000004000000010000000042006B0200000004000000020000000042'
    '00920900000008000000000000000142000D0200000004000000010000000042000F010000003842005C050000000400000025000000004200'
    '7F0500000004000000000000000042007C01000000104200C20800000004DEADBEEF00000000')


def attribute(number):
    values = [
        enumeration(0x42000B, number % 7),
        integer(0x42000B, number % 4096),
        text(0x42000B, 'a name of a key, %d' % number),
        octets(0x42000B, bytes((number + i) % 256 for i in range(32))),
        date(0x42000B, number),
        structure(0x42000B, text(0x420055, 'another name'), enumeration(0x420054, 1)),
        item(0x42000B, 6, (number % 2).to_bytes(8, 'big')),
    ]
    return structure(0x420008, text(0x42000A, 'x-attribute'), values[number % len(values)])


def message(size):
    parts, total, number = [], 8, 0
    while True:
        part = attribute(number)
        if total + len(part) > size:
            break
        parts.append(part)
        total += len(part)
        number += 1
    return structure(0x42007B, *parts)


if __name__ == '__main__':
    folder = sys.argv[1]
    assert len(SMALL) == 152
    for name, data in [('small', SMALL), ('middle', message(1 << 16)), ('large', message(1 << 24))]:
        with open(f'{folder}/{name}', 'wb') as out:
            out.write(data)
