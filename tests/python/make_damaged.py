#!/usr/bin/env python3
"""Writes samples/damaged.tf to standard output: a little-endian trace of four frames with one bit turned over in
frame 2, so that the letter of its second block is a `W`. All else is sound."""
import sys

from build import LITTLE, MARK


def registers(first):
    return LITTLE.registers(bytes(range(first, first + 8)))


FRAMES = [
    LITTLE.frame(1, registers(0), LITTLE.variable(1, 1000)),
    LITTLE.frame(2, LITTLE.memory(0x7ff000, b'stack')),
    LITTLE.frame(1, registers(8), b'W' + LITTLE.variable(1, 1250)[1:]),
    LITTLE.frame(1, registers(16), LITTLE.variable(1, 1500)),
]

if __name__ == '__main__':
    sys.stdout.buffer.write(LITTLE.trace(['R 8', 'tp T1:4d:E:0:0'], *FRAMES) + MARK)
