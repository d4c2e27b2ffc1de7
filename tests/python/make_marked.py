#!/usr/bin/env python3
"""Writes samples/marked.tf to standard output: a little-endian trace that ends in the end mark, as a debugger saves it.

The data before the mark are zeros too, and a tracepoint's number has a byte of 0, so that a reader that searches for
zeros shows something else."""
import sys

from build import LITTLE, MARK

FRAMES = [
    LITTLE.frame(1, LITTLE.registers(bytes(range(16))), LITTLE.variable(1, 1)),
    LITTLE.frame(256),
    LITTLE.frame(2, LITTLE.variable(1, 0), LITTLE.memory(0x4D, bytes(8))),
]

if __name__ == '__main__':
    sys.stdout.buffer.write(LITTLE.trace(['R 10', 'tp T1:4d:E:0:0'], *FRAMES) + MARK)
