"""Two GDB traces read as if joined."""
from typing import NamedTuple

from ._buffer import Holder
from ._library import ask, fits, index, settings
from .refusal import Refusal, Refused, absence_passed


class PairFrame(NamedTuple):
    """A frame's data: `trace` is 0 where they are a part of the first trace and 1 of the second, `place` is there."""

    trace: int
    place: int
    data: memoryview


class Pair(Holder):
    """Two traces read as if joined; no copy is made. Where they cannot be joined, making it raises Refused. Byte order
    and base, as in Trace, are those of both.

    Every question reads both files."""

    def __init__(self, first, second, order='little', base=16):
        self._settings = settings(order, base)
        super().__init__(first, second)

    def _read(self):
        with absence_passed():
            self.frame(0)

    def frame(self, n):
        answer = ask('tfk_pair_place', self._settings, *self._files, index(n))
        return PairFrame(answer.trace, answer.place, self.part(answer.place, answer.length, answer.trace))

    def variable(self, n, number):
        """The value in the latest variable block with this number in frame n."""
        if not fits(number, 32):
            raise Refused(Refusal.NOT_FOUND)
        return ask('tfk_pair_variable', self._settings, *self._files, index(n), number).value
