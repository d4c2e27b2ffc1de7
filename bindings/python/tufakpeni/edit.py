"""Cutting and joining GDB traces."""
import contextlib
import dataclasses

from . import _library
from ._buffer import flat, overlap, writable
from ._library import Range, Ranges, ask, call, fits, settings


@dataclasses.dataclass(frozen=True)
class Selection:
    """Ranges (low, high) of tracepoint numbers, both ends among them. With `keep` the numbers in some range are
    selected, without it those in none. More than 8 ranges, or a low above its high, are refused where it is used."""

    ranges: tuple
    keep: bool = True

    def __post_init__(self):
        ranges = tuple((low, high) for low, high in self.ranges)
        if not all(fits(number, 16) for pair in ranges for number in pair):
            raise ValueError('a tracepoint number has 16 bits')
        object.__setattr__(self, 'ranges', ranges)
        object.__setattr__(self, 'keep', bool(self.keep))

    def numbers(self):
        """As the library takes it; it refuses a count above 8 whatever the ranges are."""
        first = [Range(*pair) for pair in self.ranges[:Ranges._length_]]
        return _library.Selection(Ranges(*first), len(self.ranges), self.keep)

    def opposite(self):
        """The selection of the other sense."""
        return Selection(self.ranges, call('tfk_opposite', self.numbers()).keep)


@contextlib.contextmanager
def _apart(output, *files):
    """Views of the output and of the files, which may have no byte in common."""
    with contextlib.ExitStack() as held:
        output = held.enter_context(writable(output))
        files = [held.enter_context(flat(file)) for file in files]
        if any(overlap(output, file) for file in files):
            raise ValueError('the output overlaps a file')
        yield output, files


def cut_into(output, data, selection, order='little', base=16):
    """Writes the opening and every selected frame into a buffer, and the end mark if the trace has one. Answers the
    length; what is beyond stays unchanged. Byte order and base are as in Trace."""
    with _apart(output, data) as (room, files):
        return ask('tfk_cut', settings(order, base), *files, selection.numbers(), room).length


def join_into(output, first, second, order='little', base=16):
    """Writes the common opening and the frames of both traces into a buffer, and one end mark if either has one, as
    cut_into does."""
    with _apart(output, first, second) as (room, files):
        return ask('tfk_join', settings(order, base), *files, room).length


def cut(data, selection, order='little', base=16):
    """The opening, every selected frame, and the end mark if the trace has one."""
    return _filled(memoryview(data).nbytes, cut_into, data, selection, order, base)


def join(first, second, order='little', base=16):
    """The common opening, the first trace's frames, then the second's, and one end mark if either has one."""
    return _filled(memoryview(first).nbytes + memoryview(second).nbytes, join_into, first, second, order, base)


def _filled(room, write, *arguments):
    output = bytearray(room)
    length = write(output, *arguments)
    del output[length:]
    return output
