"""gdb/raw.tf taken apart without the library. gdbserver was told by hand to collect the registers twice for one
tracepoint, so each frame of it has two register blocks, and the library reads none of these."""
import struct

OPENING = 17_278
BLOCK = 1 + 0x9c4
HEAD = struct.Struct('<HI')
MARK = bytes(4)

# The tracepoint that collects them twice; the second block is the last of its frame.
TWICE = 7


def frames(saved):
    """Each frame's tracepoint and data."""
    at = OPENING
    while saved[at:] != MARK:
        tracepoint, size = HEAD.unpack_from(saved, at)
        at += HEAD.size + size
        yield tracepoint, saved[at - size:at]


def frame(tracepoint, data):
    return HEAD.pack(tracepoint, len(data)) + data


def once(tracepoint, data):
    """A frame without its second register block."""
    return frame(tracepoint, data[:-BLOCK] if tracepoint == TWICE else data)


def registers_once(saved):
    """The file without these blocks."""
    return saved[:OPENING] + b''.join(once(*found) for found in frames(saved)) + MARK
