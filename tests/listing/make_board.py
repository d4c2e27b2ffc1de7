#!/usr/bin/env python3
"""Writes samples/board.tf to standard output: six little-endian frames of a board with 776-byte register blocks.

A register block is x0 to x30, sp and pc, 8 bytes each, and then v0 to v31, 16 bytes each, v0 at byte 264. Each vector
register holds text that names it and its frame."""
import struct
import sys

LINES = [
    'R 308',
    'status 0;tstop::0;tframes:6;tcreated:6;tfree:4fe200;tsize:500000;circular:0',
    'tsv 1:0:1:74726163655f74696d657374616d70',
    'tsv 2:0:0:6c6f6164',
    'tp T1:400580:E:0:0',
    'tp A1:400580:R03FFFFFFFF',
    'tp T2:4005c8:E:0:0',
    'tp T3:400640:E:0:0',
]


def registers(frame):
    general = [frame * 0x1000 + i for i in range(31)] + [0x7FF000 - 16 * frame, 0x400580 + 4 * frame]
    vectors = b''.join(b'v%02d of frame %03d' % (i, frame) for i in range(32))
    return b'R' + struct.pack('<33Q', *general) + vectors


def memory(address, data):
    return b'M' + struct.pack('<QH', address, len(data)) + data


def variable(number, value):
    return b'V' + struct.pack('<Iq', number, value)


def frame(tracepoint, *blocks):
    data = b''.join(blocks)
    return struct.pack('<HI', tracepoint, len(data)) + data


FRAMES = [
    frame(1, registers(0), memory(0x7FF000, b'stack of frame 0'), variable(1, 1000)),
    frame(2, variable(1, 1250), registers(1)),
    frame(3, variable(1, 1300), variable(2, -1)),
    frame(1, registers(3), memory(0x7FEFD0, b'stack of frame 3'), variable(1, 2000)),
    frame(3, memory(0xFFFFFFFFFFFFFFFE, b'wrap')),
    frame(1, registers(5), memory(0x7FEFB0, b''), variable(2, -(2 ** 63))),
]

sys.stdout.buffer.write(b'\x7fTRACE0\n' + ''.join(line + '\n' for line in LINES).encode() + b'\n' + b''.join(FRAMES))
