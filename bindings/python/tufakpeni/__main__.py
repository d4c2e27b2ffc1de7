"""The command: shows a GDB trace or a trace.dat header as text."""
import argparse
import mmap
import os
import signal
import stat
import sys

from . import view
from ._library import BASES, ORDERS, LibraryMissing, LibraryUnfit
from .dat import MAGIC, TraceDat
from .description import opening_end
from .fault import find_fault
from .found import find_frame
from .refusal import Refusal, Refused
from .trace import Trace

LIMIT = 67_108_864
REFUSED = 1
UNREADABLE = 2

# What a file may be refused with because its R line was read in the other base. In the wrong base a register block ends
# early or late, and whatever byte stands there is taken for a letter, an `R` too.
BY_THE_BASE = (Refusal.BAD_LINE, Refusal.BAD_LETTER, Refusal.BLOCK_PAST_DATA, Refusal.SECOND_REGISTERS)


def arguments(words=None):
    parser = argparse.ArgumentParser(
        prog='python -m tufakpeni',
        description='Shows a GDB trace, or the header of a trace.dat file, as text. Without a choice of what to show: '
                    'the lines and the frames.')
    parser.add_argument('file')
    parser.add_argument('--order', choices=ORDERS, default='little', help='byte order of a GDB trace')
    parser.add_argument('--base', type=int, choices=BASES, default=16, help='base of the R line in a GDB trace')
    parser.add_argument('--lines', action='store_true', help='the lines of the description')
    parser.add_argument('--frames', action='store_true', help='the frames')
    parser.add_argument('--blocks', action='store_true', help="the frames' blocks, with the bytes of memory")
    parser.add_argument('--registers', action='store_true', help="the frames' registers, as bytes")
    parser.add_argument('--variables', action='store_true', help="the frames' variables")
    parser.add_argument('--frame', type=int, metavar='N', help='of frame N only, without a reading of the whole file')
    parser.add_argument('--dat', action='store_true', help='read the file as trace.dat whatever it starts with')
    return parser.parse_args(words)


def contents(file, chosen):
    """The file's bytes. Where one frame is asked for they are mapped if they can be, so that little of them is read."""
    status = os.fstat(file.fileno())
    if chosen.frame is not None and stat.S_ISREG(status.st_mode) and status.st_size:
        return mmap.mmap(file.fileno(), 0, access=mmap.ACCESS_READ)
    # One byte over the limit is enough to be refused for it.
    return file.read(LIMIT + 1)


def shown(chosen, description, show_frames, frames):
    """The lines of text that the arguments ask for."""
    details = [show for show in (view.blocks, view.registers, view.variables) if getattr(chosen, show.__name__)]
    framed = details or chosen.frames or chosen.frame is not None
    yield from view.size(description)
    if chosen.lines or not framed:
        yield from view.lines(description)
    if framed or not chosen.lines:
        yield from show_frames(frames, details)


def write(lines):
    sys.stdout.writelines(line + '\n' for line in lines)


def show(data, chosen):
    if chosen.dat or data[:len(MAGIC)] == MAGIC:
        with TraceDat(data) as header:
            write(view.dat(header))
    elif chosen.frame is not None:
        with find_frame(data, chosen.frame, chosen.order, chosen.base) as frame:
            write(shown(chosen, frame.description, view.single, frame))
    else:
        show_trace(data, chosen)


def show_trace(data, chosen):
    """A trace, or the front of one that is damaged."""
    try:
        trace = Trace(data, chosen.order, chosen.base)
    except Refused:
        show_front(data, chosen)
    else:
        with trace:
            write(shown(chosen, trace, view.whole, trace))


def show_front(data, chosen):
    """What stands ahead of the fault, which is then raised."""
    fault = find_fault(data, chosen.order, chosen.base)
    with Trace(memoryview(data)[:fault.place], chosen.order, chosen.base) as trace:
        write(shown(chosen, trace, view.front, trace))
    raise fault.refused()


def register_size(data, base):
    """The size of a register block by the opening alone; None where the opening says none in this base."""
    opening = memoryview(data)[:opening_end(data)]
    try:
        with Trace(opening, base=base) as trace:
            return trace.register_size
    except Refused:
        return None


def explained(refused, data, base):
    """A refusal as text; where the base may be the reason, with the base that was tried and how to try the other. It is
    not where the other base says no size, or the same."""
    other, = set(BASES) - {base}
    if refused.number not in BY_THE_BASE or register_size(data, other) in (None, register_size(data, base)):
        return str(refused)
    return f'{refused}\nbase {base} was tried for the R line; to try the other: --base {other}'


def main():
    # A reader such as `head` that has seen enough ends the command without a traceback.
    signal.signal(signal.SIGPIPE, signal.SIG_DFL)
    chosen = arguments()
    try:
        with open(chosen.file, 'rb') as file:
            data = contents(file, chosen)
        show(data, chosen)
    except Refused as refused:
        sys.stdout.flush()
        print(explained(refused, data, chosen.base), file=sys.stderr)
        return REFUSED
    except (OSError, LibraryMissing, LibraryUnfit) as error:
        print(error, file=sys.stderr)
        return UNREADABLE
    return 0


if __name__ == '__main__':
    sys.exit(main())
