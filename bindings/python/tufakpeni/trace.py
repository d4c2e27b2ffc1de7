"""GDB traces: frames and blocks, as parts of the caller's bytes."""
import itertools
from typing import NamedTuple

from ._library import FrameRecord, ask, fits, index
from .description import Description
from .refusal import Refusal, Refused, absence_passed


class Registers(NamedTuple):
    """A frame's only register block. `place` is that of its letter, `data` its bytes without the letter."""

    place: int
    data: memoryview


class Memory(NamedTuple):
    """A memory block. `place` is that of its letter, `data` its bytes alone."""

    place: int
    address: int
    length: int
    data: memoryview


class Variable(NamedTuple):
    """A variable block. `place` is that of its letter."""

    place: int
    number: int
    value: int


def answers(name, *arguments):
    """The answers of a question that counts from 0, up to the first that is not there."""
    with absence_passed():
        for k in itertools.count():
            yield ask(name, *arguments, k)


class Frame:
    """A frame: its number in the trace, its tracepoint's number, and the place and size of its data. `registers_place` is
    the place of its register block's bytes, None where it has no such block."""

    __slots__ = ('_trace', 'number', 'tracepoint', 'place', 'size', 'registers_place')

    def __init__(self, trace, number, record):
        self._trace = trace
        self.number = number
        self.tracepoint = record.tracepoint
        self.place = record.place
        self.size = record.size
        self.registers_place = record.registers_place if record.has_registers else None

    def __repr__(self):
        return f'<frame {self.number}: tracepoint {self.tracepoint}, {self.size} bytes at {self.place}>'

    @property
    def data(self):
        return self._trace.part(self.place, self.size)

    @property
    def blocks(self):
        """The frame's blocks, in order."""
        alone, moved = self._alone()
        records = list(answers('tfk_block_record', self._trace._settings, alone, 0))
        # A block ends where the next one starts, and the last one where the data end.
        ends = [record.place for record in records[1:]] + [len(alone)]
        return [self._block(record, end, moved) for record, end in zip(records, ends)]

    @property
    def registers(self):
        """The bytes of the frame's register block. It is the only one: a file with two in a frame is refused.

        They come from the table: their place from the frame's record, and their number from the R line."""
        if self.registers_place is None:
            raise Refused(Refusal.NOT_FOUND)
        return self._trace.part(self.registers_place, self._trace.register_size)

    def memory(self, address):
        """The bytes from an address to the end of the earliest memory block that covers it."""
        if not fits(address, 64):
            raise Refused(Refusal.NOT_FOUND)
        alone, moved = self._alone()
        answer = ask('tfk_memory_place', self._trace._settings, alone, 0, address)
        return self._trace.part(answer.place + moved, answer.length)

    def variable(self, number):
        """The value in the latest variable block with this number."""
        if not fits(number, 32):
            raise Refused(Refusal.NOT_FOUND)
        alone, _ = self._alone()
        return ask('tfk_variable', self._trace._settings, alone, 0, number).value

    def _alone(self):
        return self._trace.alone(self.place, self.size)

    def _block(self, record, end, moved):
        place, end = record.place + moved, end + moved
        letter = chr(record.letter)
        if letter == 'V':
            return Variable(place, record.number, record.value)
        if letter == 'M':
            data = self._trace.part(end - record.length, record.length)
            return Memory(place, record.address, record.length, data)
        return Registers(place, self._trace.part(place + 1, end - place - 1))


def frame_table(settings, file, count):
    """The records of a file's frames, of which there are so many."""
    table = (FrameRecord * count)()
    ask('tfk_frame_table', settings, file, table, count)
    return table


class Trace(Description):
    """A GDB trace over the caller's bytes. Of a map of a file that other processes write to, give it a copy.

    It has its frames as length and iteration. Where the bytes are no trace, making it raises Refused.

    `base` is that of the number in the R line: 16, as debuggers write it, or 10; any other is refused."""

    def _read(self):
        file, = self._files
        count = ask('tfk_frame_count', self._settings, file).count
        self._table = frame_table(self._settings, file, count)
        super()._read()

    def __len__(self):
        return len(self._table)

    def __iter__(self):
        return (Frame(self, n, record) for n, record in enumerate(self._table))

    def frame(self, n):
        if index(n) >= len(self):
            raise Refused(Refusal.NOT_FOUND)
        return Frame(self, n, self._table[n])

    @property
    def marked(self):
        """Whether the end mark, four bytes of 0, stands behind the frames. Debuggers write it when all else is saved.
        The answer takes a reading of the whole file."""
        return bool(ask('tfk_end_mark', self._settings, *self._files).marked)
