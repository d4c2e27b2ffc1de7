"""Traces as text, for people who read them by eye. Each function gives lines of text one by one."""
import collections

from .dat import SECTIONS
from .refusal import absence_passed
from .trace import Memory, Registers, Variable

ROW = 16


def text(data):
    """Bytes of a line, with those that cannot be shown escaped."""
    return bytes(data).decode('latin-1').encode('unicode_escape').decode('ascii')


def rows(data):
    """Bytes as hexadecimal, 16 a row, each row with its offset."""
    return (f'{at:5}  {data[at:at + ROW].hex(" ")}' for at in range(0, len(data), ROW))


def indented(depth, lines):
    return ('  ' * depth + line for line in lines)


def size(trace):
    """How long register blocks are, with the line that says it and the base in which it is read."""
    line = trace.register_line
    if line is None:
        yield 'no R line, so no register blocks'
    else:
        yield f'register blocks of {trace.register_size} bytes: `{text(line.data)}` in base {trace.base}'


def lines(trace):
    found = trace.lines
    yield f'lines {len(found)}'
    for j, line in enumerate(found):
        yield f'  {j} {line.kind} at {line.place}: {text(line.data)}'


def record(frame):
    """What the table tells of a frame."""
    place = frame.registers_place
    registers = 'no registers' if place is None else f'registers at {place}'
    return f'frame {frame.number}: tracepoint {frame.tracepoint}, {frame.size} bytes at {frame.place}, {registers}'


def whole(trace, details):
    """All frames of a trace, each with what the functions `details` show of it."""
    yield f'frames {len(trace)}, {"then the end mark" if trace.marked else "no end mark"}'
    yield from frames(trace, details)


def front(trace, details):
    """The same of the sound frames at the front of a damaged file."""
    yield f'frames {len(trace)} up to the fault'
    yield from frames(trace, details)


def single(frame, details):
    """The same of a frame that was found by its number."""
    yield f'frame {frame.number} by {frame.heads} frame head{"s" if frame.heads > 1 else ""}'
    yield from frames([frame], details)


def frames(chosen, details):
    for frame in chosen:
        yield '  ' + record(frame)
        for detail in details:
            yield from indented(2, detail(frame))


def blocks(frame):
    for block in frame.blocks:
        if isinstance(block, Registers):
            yield f'R at {block.place}: {len(block.data)} bytes'
        elif isinstance(block, Memory):
            yield f'M at {block.place}: {block.length} bytes from {block.address:#x}'
            yield from indented(1, rows(block.data))
        else:
            yield f'V at {block.place}: variable {block.number} = {block.value}'


def registers(frame):
    """That there are none the frame's own line says."""
    with absence_passed():
        data = frame.registers
        yield f'registers: {len(data)} bytes'
        yield from indented(1, rows(data))


def variables(frame):
    """Each variable once, with the value of its latest block."""
    blocks = collections.Counter(block.number for block in frame.blocks if isinstance(block, Variable))
    for number, count in blocks.items():
        yield f'variable {number} = {frame.variable(number)}' + (f', the last of {count} blocks' if count > 1 else '')


def dat(header):
    counts = {'formats': header.format_count, 'systems': header.system_count}
    yield f'trace.dat version 6, {header.order}-endian, long size {header.long_size}, page size {header.page_size}'
    for name in SECTIONS:
        section = header.section(name)
        counted = f', {counts[name]} of them' if name in counts else ''
        yield f'{name}: {section.size} bytes at {section.place}{counted}'
    yield f'ending {header.ending}, header end {header.header_end}'
    yield f'CPUs {header.cpu_count}'
    for i, cpu in enumerate(header.cpus):
        yield f'  CPU {i}: {cpu.size} bytes at {cpu.offset}'
