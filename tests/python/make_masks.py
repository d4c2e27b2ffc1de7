#!/usr/bin/env python3
"""Writes samples/masks.tf to standard output: a board's little-endian trace with known masks in v0.

A register block is 33 general registers of 8 bytes, then v0 to v31 of 16 bytes, v0 at byte 264. All bytes beside v0 are
letters of blocks, so that a reader that searches for a letter, or starts 16 bytes late, shows something else."""
import sys

from build import LITTLE

GENERAL = b'M' * 264
BESIDE = b'RMV' * 165 + b'R'

ALL = b'\xff' * 16
NONE = b'\0' * 16
EVERY_SECOND = b'\x55' * 16
FIRST_GROUP = b'\xff' + b'\0' * 15
COUNTED = bytes(range(16))


def registers(v0):
    return LITTLE.registers(GENERAL + v0 + BESIDE)


FRAMES = [
    LITTLE.frame(1, registers(ALL), LITTLE.variable(1, 128)),
    LITTLE.frame(1, registers(EVERY_SECOND), LITTLE.variable(1, 64)),
    LITTLE.frame(2, LITTLE.variable(1, 64)),
    LITTLE.frame(3, LITTLE.memory(0x4D, b'RRRR'), registers(FIRST_GROUP)),
    LITTLE.frame(1, LITTLE.variable(0x5252, -1), registers(COUNTED)),
    LITTLE.frame(1, registers(NONE)),
]

if __name__ == '__main__':
    sys.stdout.buffer.write(LITTLE.trace(['R 308', 'R8', 'tp T1:4d:E:0:0'], *FRAMES))
