"""A proved reader of GDB trace files and of trace.dat headers of version 6.

    with open('board.tf', 'rb') as file, Trace(file.read()) as trace:
        for frame in trace:
            print(frame.number, frame.tracepoint, frame.registers[264:280].hex())

The R line says how long a register block is, in hexadecimal as debuggers write it: `R 308` for 776 bytes. A file that
has it in decimal must be read so, here and wherever it is cut or joined:

    Trace(data, base=10)
    cut(data, Selection([(1, 1)]), base=10)

One frame by its number, without a reading of the whole file, and so also from a file that is at fault elsewhere; and
the frames of a damaged file up to its fault:

    find_frame(data, 3)
    Trace(memoryview(data)[:find_fault(data).place])

What is handed out are parts of the caller's bytes, not copies. A file or a question that the library refuses raises
Refused, with the number and the sentence of document 01's table, or of document 02's requests."""
from ._library import LibraryMissing, LibraryUnfit
from .dat import CpuRange, Section, TraceDat
from .description import Line
from .edit import Selection, cut, cut_into, join, join_into
from .fault import Fault, find_fault
from .found import FoundFrame, find_frame
from .pair import Pair, PairFrame
from .refusal import Refusal, Refused
from .trace import Frame, Memory, Registers, Trace, Variable

__all__ = [
    'CpuRange', 'Fault', 'FoundFrame', 'Frame', 'LibraryMissing', 'LibraryUnfit', 'Line', 'Memory', 'Pair', 'PairFrame',
    'Refusal', 'Refused', 'Registers', 'Section', 'Selection', 'Trace', 'TraceDat', 'Variable', 'cut', 'cut_into',
    'find_fault', 'find_frame', 'join', 'join_into',
]
