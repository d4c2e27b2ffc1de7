"""Where a damaged GDB trace is at fault, found with few questions."""
from typing import NamedTuple

from ._buffer import flat
from ._library import call, settings
from .description import opening_end
from .refusal import Refusal, Refused

# What is refused ahead of the frames: the argument, the length, the opening.
AHEAD = (Refusal.TOO_LONG, Refusal.BAD_ARGUMENT, Refusal.BAD_HEAD, Refusal.NO_EMPTY_LINE, Refusal.BAD_LINE)

# What is refused where no head of a frame stands.
HEADLESS = (Refusal.SHORT_HEAD, Refusal.BAD_MARK)


class Fault(NamedTuple):
    """A file's earliest fault among its frames: the number of the frame, the place of its head, or where one should
    start, and what the file is refused with. All frames before it are sound: the file up to this place is a trace."""

    frame: int
    place: int
    refusal: Refusal

    def refused(self):
        """The same as an error, whose words have the frame and the place."""
        stands = 'should start' if self.refusal in HEADLESS else 'stands'
        return Refused(self.refusal, f'in frame {self.frame}, whose head {stands} at byte {self.place:,}')


def find_fault(data, order='little', base=16):
    """The earliest fault among a file's frames; None where the file is accepted. Byte order and base are as in Trace. A
    file that is refused ahead of its frames, with 1 to 5, raises Refused.

    Some four questions are asked for each doubling of the number of sound frames, and none reads more than the file."""
    with flat(data) as file:
        manner = settings(order, base)
        refusal = call('tfk_frame_count', manner, file).refusal
        if refusal in AHEAD:
            raise Refused(refusal)
        return _fault(manner, file, Refusal(refusal)) if refusal else None


def _fault(manner, file, refusal):
    sound = _last(lambda count: _are_sound(manner, file, count))
    return Fault(sound, _end(manner, file, sound), refusal)


def _end(manner, file, count):
    """Where the first frames end, so many of them; None where they do not stand there."""
    if not count:
        return opening_end(file)
    last = call('tfk_frame_place', manner, file, count - 1)
    return None if last.refusal else last.place + last.length


def _are_sound(manner, file, count):
    """Whether the first frames are sound, so many of them: whether the file up to their end is a trace. Where they are,
    so are any fewer."""
    end = _end(manner, file, count)
    return end is not None and not call('tfk_frame_count', manner, file[:end]).refusal


def _last(holds):
    """The last number for which it holds, where it holds for every number up to some and for none beyond."""
    beyond = _doubled(holds)
    last = beyond // 2
    while last + 1 < beyond:
        middle = (last + beyond) // 2
        if holds(middle):
            last = middle
        else:
            beyond = middle
    return last


def _doubled(holds):
    """The least power of two for which it does not hold."""
    number = 1
    while holds(number):
        number *= 2
    return number
