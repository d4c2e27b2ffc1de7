#!/usr/bin/env python3
"""Writes made/digits.tf to standard output: a little-endian trace whose register size, `R 974`, has decimal digits only.

In base 16 its frame is a register block of 2,420 bytes and 8 bytes of memory at 0x7000. In base 10 the register block has
974 bytes, and what is the rest of it in base 16 is a block of memory at 0x5000."""
import struct
import sys

LINES = ['R 974', 'status 0;tstop::0;tframes:1;tcreated:1;tfree:4ff678;tsize:500000;circular:0', 'tp T1:401000:E:0:0']
SIXTEEN, TEN = 0x974, 974
MEMORY_HEAD = 11


def memory(address, data):
    return b'M' + struct.pack('<QH', address, len(data)) + data


INNER = memory(0x5000, b'\x5a' * (SIXTEEN - TEN - MEMORY_HEAD))
DATA = b'R' + bytes(TEN) + INNER + memory(0x7000, b'behind16')

sys.stdout.buffer.write(b'\x7fTRACE0\n' + ''.join(line + '\n' for line in LINES).encode() + b'\n'
                        + struct.pack('<HI', 1, len(DATA)) + DATA + bytes(4))
