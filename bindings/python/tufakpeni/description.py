"""The opening of a GDB trace, with its lines: what a frame needs of the trace that it is in."""
import functools
import re
from typing import NamedTuple

from ._buffer import Holder
from ._library import ask, settings

KINDS = ('other', 'R', 'status', 'tp', 'tsv', 'tdesc')
HEAD = 8
FRAME_HEAD = 6

# The head ends with a line's end too, so that an empty line is found right behind it.
EMPTY_LINE = re.compile(b'\n\n')


class Line(NamedTuple):
    """A line of the description, without its end. `kind` is one of KINDS."""

    kind: str
    place: int
    data: memoryview


def opening_end(file):
    """Where the opening ends: behind the first empty line, or where the file ends if it has none. No byte is copied,
    and none behind that line is looked at."""
    found = EMPTY_LINE.search(file)
    return found.end() if found else len(file)


class Description(Holder):
    """The opening of a GDB trace over the caller's bytes. Whoever makes one asks the library first, so that it is known
    to be an opening."""

    def __init__(self, data, order='little', base=16):
        self._settings = settings(order, base)
        super().__init__(data)

    def _read(self):
        file, = self._files
        self._opening_end = opening_end(file)

    @property
    def opening(self):
        """The head and the description, with its empty line."""
        return self.part(0, self._opening_end)

    @property
    def lines(self):
        """The description's lines, the closing empty one not among them."""
        return list(self._lines())

    def _lines(self):
        """The same one by one. A line alone is a description too, and it is the one that is asked: see `alone`."""
        opening = bytes(self.opening)
        place = HEAD
        while not opening.startswith(b'\n', place):
            end = opening.index(b'\n', place)
            alone = memoryview(opening[:HEAD] + opening[place:end] + b'\n\n')
            line = ask('tfk_line_place', self._settings, alone, 0)
            yield Line(KINDS[line.kind], place, self.part(place, line.length))
            place = end + 1

    @property
    def base(self):
        """The base in which the R line is read."""
        return self._settings.base

    @property
    def register_line(self):
        """The R line; None where there is none."""
        return next((line for line in self._lines() if line.kind == 'R'), None)

    @property
    def register_size(self):
        """How many bytes a register block has by the R line; None where there is no such line."""
        return self._register_size

    @functools.cached_property
    def _register_size(self):
        """The same, looked for once: every frame's registers go by it."""
        line = self.register_line
        # The library has let the line through, so nothing but digits of the base stands behind its word.
        return None if line is None else int(bytes(line.data[len('R '):]), self.base)

    def alone(self, place, size):
        """A trace of the opening and one frame only, that whose data are at this place, and how far its places must be
        moved to be the file's.

        A question reads the whole file that it is given, so asking the file about every frame takes the square of its
        length. The opening and one frame are a trace too, in which the frame is frame 0 and has the same blocks."""
        head = place - FRAME_HEAD
        frame = self.part(head, FRAME_HEAD + size)
        return memoryview(b''.join((self.opening, frame))), head - self._opening_end
