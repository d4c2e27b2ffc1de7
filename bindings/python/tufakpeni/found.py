"""One frame of a GDB trace by its number, without a reading of the whole file."""
from ._buffer import Closing
from ._library import call, index
from .description import Description
from .refusal import OF_BLOCKS, Refused
from .trace import Frame, frame_table


class Sought(Description):
    """A description with the record of one frame, `number`, and how many heads were read for it."""

    def __init__(self, data, n, order, base):
        self.number = index(n)
        super().__init__(data, order, base)

    def _read(self):
        file, = self._files
        part = call('tfk_frame_place', self._settings, file, self.number)
        if part.refusal:
            raise Refused(part.refusal, f'in frame {self.number}' if part.refusal in OF_BLOCKS else '')
        super()._read()
        self.heads = part.heads
        self.record = self._record(part)

    def _record(self, part):
        """The frame's record: that of the frame alone, its places moved."""
        alone, moved = self.alone(part.place, part.length)
        record, = frame_table(self._settings, alone, 1)
        record.place += moved
        if record.has_registers:
            record.registers_place += moved
        return record


class FoundFrame(Frame, Closing):
    """A frame that was found by its number. It has what a Frame has, and besides `heads`, the number of frame heads
    that were read for it. It holds the caller's bytes until it is closed; the parts that it handed out hold them by
    themselves."""

    __slots__ = ('heads',)

    def __init__(self, sought):
        super().__init__(sought, sought.number, sought.record)
        self.heads = sought.heads

    @property
    def description(self):
        """The trace's opening, lines, R line, register size and base, as a Trace has them."""
        return self._trace

    def close(self):
        self._trace.close()


def find_frame(data, n, order='little', base=16):
    """Frame n of a GDB trace, a FoundFrame. Byte order and base are as in Trace.

    Of the bytes only the opening, the heads of frames 0 to n and that frame are read. So it costs what these cost, and
    the frame is found also where the file is at fault elsewhere. Each call walks over the heads anew: for all frames
    make a Trace.

        with find_frame(data, 3) as frame:
            print(frame.tracepoint, frame.heads)"""
    return FoundFrame(Sought(data, n, order, base))
