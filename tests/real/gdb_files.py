"""Traces that gdb saved, held against what gdb itself reads in them.

They are read as saved, in the base that holds where none is said, and every line, frame, block, register byte, memory
byte and variable is compared, and whether the end mark is there. Three are refused: two are compared up to where they
are broken, the third without the register blocks that its frames have twice. Each frame is also asked for by its
number, in the files as they were saved: so the sound frames of the refused ones are found too."""
import collections
import hashlib
import json
import pathlib
import subprocess
import sys

import raw_file
from report import refusal, same
from tufakpeni import Fault, Memory, Pair, Refusal, Registers, Trace, Variable, find_fault, find_frame

HERE = pathlib.Path(__file__).parent
FOLDER = HERE / 'gdb'
FACTS = json.loads((FOLDER / 'facts.json').read_text())
HEAD = 8
MARK = bytes(4)

# The files that are refused as saved. All others are read.
BROKEN = {
    # the frame that gdbserver broke starts with a 00 where a letter should be; gdb reads the five frames before it
    'circular': Fault(5, 29_678, Refusal.BAD_LETTER),
    # gdbserver was told to collect registers twice in a frame
    'raw': Fault(0, raw_file.OPENING, Refusal.SECOND_REGISTERS),
    # a head of number 0, with frames behind it
    'zeronum': Fault(0, 16_913, Refusal.BAD_MARK),
}

# What each frame of these is refused with where it is asked for by its number, None where it is found. Behind the frame
# that gdbserver broke stand two bytes of 0.
BY_NUMBER = {
    'circular': [None] * 5 + [Refusal.BAD_LETTER, Refusal.BAD_MARK],
    'raw': [Refusal.SECOND_REGISTERS, None] * 3 + [None, Refusal.NOT_FOUND],
    'zeronum': [Refusal.BAD_MARK],
}

# gdb failed half way and wrote no mark.
UNMARKED = {'resave'}

# Where variable 2 is collected, changed and collected again: by frame, its values in the order of its blocks.
TWO_VALUES = {
    'raw': {0: [-2, -1], 2: [-1, 0], 4: [0, 1]},
    's390x': {0: [-1, -3], 1: [-3, -9], 2: [-9, -27], 3: [-27, -81], 4: [-81, -243]},
    'tsv': {0: [5, 6], 1: [6, 7], 2: [7, 8]},
}

# Where a frame has no R block gdb takes the program counter from the tracepoint and shows it alone.
PROGRAM_COUNTERS = {'rip', 'eip', 'pswa'}


def rows(name, kind):
    """The JSON lines of what gdb reads, where it reads such."""
    file = FOLDER / 'expected' / f'{name}.{kind}.json'
    return json_lines(file) if file.exists() else []


def frame_rows(name):
    """What gdb reads of each frame."""
    return [row for row in rows(name, 'gdb') if 'frame' in row]


def json_lines(file):
    return [json.loads(line) for line in file.read_text().splitlines()]


def decimal(file):
    """The file with its R line, which gdb writes first, in decimal."""
    line, rest = file[HEAD:].split(b'\n', 1)
    return file[:HEAD] + b'R %d\n' % int(line[len('R '):], 16) + rest


def broken_by(name):
    """What a file is refused with as saved; None where it is read."""
    return BROKEN[name].refusal if name in BROKEN else None


def shape(block):
    """A block as facts.json writes it: R, M and its length, V and its number."""
    if isinstance(block, Memory):
        return f'M{block.length}'
    return f'V{block.number}' if isinstance(block, Variable) else 'R'


def read(frame, address, length):
    """Memory as gdb reads it: from the earliest block that covers the address, then on from where that block ends."""
    data = b''
    while len(data) < length:
        data += frame.memory(address + len(data))[:length - len(data)]
    return data.hex()


def compare_description(trace, facts):
    same(dict(collections.Counter(line.kind for line in trace.lines)), facts['lines'], 'lines')
    same(len(trace.opening), facts['opening'], 'opening')
    shapes = (' '.join(map(shape, frame.blocks)) for frame in trace)
    same(dict(collections.Counter(shapes)), facts['blocks'], 'blocks')


def compare_frames(trace, expected):
    same([(frame.number, frame.tracepoint) for frame in trace], [(row['frame'], row['tp']) for row in expected])


def compare_registers(trace, expected):
    """Every byte of the first R block, by its offset there. The frame's record has their place."""
    shown = {row['frame']: row['regs'] for row in expected}
    for frame in trace:
        places = [block.place + 1 for block in frame.blocks if isinstance(block, Registers)]
        same([frame.registers_place], places or [None], f'the record of frame {frame.number}')
        registers = shown.get(frame.number, [])
        if not places:
            same({name for name, _, _ in registers} <= PROGRAM_COUNTERS, True, f'frame {frame.number}')
            continue
        data = bytearray(len(frame.registers))
        for _, offset, contents in registers:
            data[offset:offset + len(contents) // 2] = bytes.fromhex(contents)
        same(sum(len(contents) for _, _, contents in registers), 2 * len(data), 'bytes that gdb shows')
        same(bytes(frame.registers), bytes(data), f'frame {frame.number}')


def compare_memory(trace, expected):
    """gdb's reading of each block's addresses, and its list of all memory that the frame has."""
    for frame, row in zip(trace, expected):
        found = [block for block in frame.blocks if isinstance(block, Memory)]
        if 'reads' in row:
            same([read(frame, block.address, block.length) for block in found], row['reads'])
        same([[address, length, read(frame, address, length)] for address, length, _ in row['memory']], row['memory'])
        covered = {address for block in found for address in range(block.address, block.address + block.length)}
        listed = {address for start, length, _ in row['memory'] for address in range(start, start + length)}
        same(covered, listed, f'frame {frame.number}')


def variable_names(trace):
    """Number -> name, from the lines `tsv number:value:builtin:name`, the name in hexadecimal."""
    lines = [bytes(line.data).decode()[len('tsv '):].split(':') for line in trace.lines if line.kind == 'tsv']
    return {int(line[0], 16): '$' + bytes.fromhex(line[3]).decode() for line in lines}


def compare_variables(trace, expected):
    """What is answered for each variable that the frame has is what gdb shows, and gdb shows no other."""
    names = variable_names(trace)
    for frame, row in zip(trace, expected):
        numbers = {block.number for block in frame.blocks if isinstance(block, Variable)}
        same({names[number]: frame.variable(number) for number in numbers}, row['tsv'], f'frame {frame.number}')
        for number in names.keys() - numbers:
            same(refusal(frame.variable, number), Refusal.NOT_FOUND, f'frame {frame.number}')


def test_read(report, name, trace, expected, how=''):
    """A trace, or the frames of one that are found, against what gdb reads of them."""
    for what, compare in (('frames', compare_frames), ('memory', compare_memory), ('variables', compare_variables)):
        with report.case(f'{name}: {what}{how}'):
            compare(trace, expected)
    with report.case(f'{name}: registers{how}'):
        compare_registers(trace, rows(name, 'regs'))


def test_whole(report, name, file, facts):
    """What is known of a file that is read whole, and then all that gdb reads in it."""
    trace = Trace(file, facts['order'])
    with report.case(f'{name}: lines, opening and blocks'):
        compare_description(trace, facts)
    with report.case(f'{name}: the end mark'):
        same(trace.marked, name not in UNMARKED)
    test_read(report, name, trace, frame_rows(name))


def record(frame):
    """All that is known of a frame."""
    return (frame.number, frame.tracepoint, frame.place, frame.size, frame.registers_place, bytes(frame.data),
            frame.blocks)


def test_by_number(report, name, saved):
    """Each frame of a file that is read, by its number: it is the table's, found by the heads up to its own."""
    order = FACTS[name]['order']
    trace = Trace(saved, order)
    with report.case(f'{name}: each frame by its number'):
        found = [find_frame(saved, n, order) for n in range(len(trace))]
        same([record(frame) for frame in found], [record(frame) for frame in trace])
        same([frame.heads for frame in found], list(range(1, len(trace) + 1)), 'heads')
        same(refusal(find_frame, saved, len(trace), order), Refusal.NOT_FOUND)


class Found:
    """Frames found by their numbers in a file that is refused, and its lines, as a trace has them."""

    def __init__(self, saved, order, numbers):
        self.frames = [find_frame(saved, n, order) for n in numbers]
        self.lines = self.frames[0].description.lines

    def __iter__(self):
        return iter(self.frames)


def test_damaged(report, name, saved):
    """A file that is refused, as it was saved: where its fault is, and each frame by its number. Those that are found
    are what gdb reads."""
    order, expected = FACTS[name]['order'], BY_NUMBER[name]
    with report.case(f'{name}: where it is broken'):
        same(find_fault(saved, order), BROKEN[name])
    with report.case(f'{name}: each frame by its number'):
        same([refusal(find_frame, saved, n, order) for n in range(len(expected))], expected)
    numbers = [n for n, number in enumerate(expected) if number is None]
    if numbers:
        found = Found(saved, order, numbers)
        with report.case(f'{name}: heads'):
            same([frame.heads for frame in found], [n + 1 for n in numbers])
        test_read(report, name, found, [frame_rows(name)[n] for n in numbers], ' by number')


def test_saved(report, name, saved):
    """The file is the one that the facts speak of, and it is read, or refused, as told."""
    facts = FACTS[name]
    with report.case(f'{name}: unchanged'):
        same((len(saved), hashlib.sha256(saved).hexdigest()), (facts['bytes'], facts['sha256']))
        same(saved[HEAD:].split(b'\n', 1)[0].decode(), facts['register_line'])
        same(saved.endswith(MARK), name not in UNMARKED, 'four bytes of 0')
    with report.case(f'{name}: as saved'):
        same(refusal(Trace, saved, facts['order']), broken_by(name))
    with report.case(f'{name}: in base 10'):
        # Every R line here has a letter among its digits.
        same(refusal(Trace, saved, facts['order'], 10), Refusal.BAD_LINE)


def contents(trace):
    """All that a trace has behind its R line, which gdb writes first."""
    lines = [(line.kind, bytes(line.data)) for line in trace.lines[1:]]
    frames = [(frame.tracepoint, bytes(frame.data), [shape(block) for block in frame.blocks]) for frame in trace]
    return trace.register_size, lines, frames, trace.marked


def test_decimal(report, name, saved, sound):
    """The file with its R line in decimal. In base 10 it is what it was; `sound` is the part that can be compared."""
    order = FACTS[name]['order']
    with report.case(f'{name}: in decimal and in base 10'):
        same(refusal(Trace, decimal(saved), order, 10), broken_by(name))
        same(contents(Trace(decimal(sound), order, 10)), contents(Trace(sound, order)))
    with report.case(f'{name}: in decimal, and nothing said'):
        # As hexadecimal the number is larger, and no register block has room. Without such a block all is as it was.
        expected = Refusal.BLOCK_PAST_DATA if rows(name, 'regs') else broken_by(name)
        same(refusal(Trace, decimal(saved), order), expected)


def test_decimal_digits(report):
    """A trace made by hand, in which gdb reads `R 974` in base 16: it finds the memory behind 2,420 bytes of registers,
    and not the memory that base 10 shows within them."""
    file = (HERE / 'made/digits.tf').read_bytes()
    with report.case('digits: what its script makes'):
        words = [sys.executable, HERE / 'scripts/make_digits.py']
        same(subprocess.run(words, stdout=subprocess.PIPE, check=True).stdout, file)
    with report.case('digits: as gdb reads it'):
        expected, _ = json_lines(HERE / 'made/digits.gdb.json')
        trace = Trace(file)
        compare_frames(trace, [expected])
        compare_memory(trace, [expected])
        same((trace.register_size, [shape(block) for block in trace.frame(0).blocks]), (2420, ['R', 'M8']))
    with report.case('digits: in base 10'):
        trace = Trace(file, base=10)
        same((trace.register_size, [shape(block) for block in trace.frame(0).blocks]), (974, ['R', 'M1435', 'M8']))


def test_two_values(report):
    """In three files variable 2 is collected, changed and collected again, so that a frame has two values of it. The
    later one is answered, and it is the one that gdb shows."""
    for name, values in TWO_VALUES.items():
        with report.case(f'{name}: the later of two values'):
            file = sound_part(name, (FOLDER / f'{name}.tf').read_bytes())
            trace = Trace(file, FACTS[name]['order'])
            found = {frame.number: [block.value for block in frame.blocks if shape(block) == 'V2'] for frame in trace}
            same({n: pair for n, pair in found.items() if pair}, values)
            later = {n: pair[1] for n, pair in values.items()}
            same({n: trace.frame(n).variable(2) for n in values}, later)
            shown = {row['frame']: row['tsv'] for row in frame_rows(name)}
            same({n: shown[n][variable_names(trace)[2]] for n in values}, later)
            same({n: Pair(file, file, FACTS[name]['order']).variable(len(trace) + n, 2) for n in values}, later)


def test_zero_numbers(report, sound):
    """Tracepoint 65,536 was stored as number 0. gdb takes the first such head for the end mark, whatever follows, and
    reads no frame. Here what follows makes it a bad mark; up to there the file is read as gdb reads it."""
    with report.case('zeronum: up to the first number 0'):
        summary, = rows('zeronum', 'gdb')
        trace = Trace(sound)
        same((len(trace), trace.marked), (summary['frames'], True))


def test_second_registers(report, saved, sound):
    """gdb reads every frame of raw.tf, and of two register blocks in a frame it shows the first. Here such a frame is
    refused; without its second block it is read, and all is as gdb reads it."""
    frames = list(raw_file.frames(saved))
    twice = [tracepoint == raw_file.TWICE for tracepoint, _ in frames]
    with report.case('raw: up to the first frame, which has two register blocks'):
        same((len(Trace(saved[:raw_file.OPENING])), twice[0]), (0, True))
    with report.case('raw: each frame alone'):
        alone = [refusal(Trace, saved[:raw_file.OPENING] + raw_file.frame(*frame)) for frame in frames]
        same(alone, [Refusal.SECOND_REGISTERS if two else None for two in twice])
    with report.case('raw: the second block has the bytes of the first'):
        seconds = [data[-raw_file.BLOCK:] for (_, data), two in zip(frames, twice) if two]
        same(seconds, [b'R' + frame.registers for frame, two in zip(Trace(sound), twice) if two])
    # The second register block is the fifth block of its frame.
    shapes = {' '.join(blocks.split()[:4]): count for blocks, count in FACTS['raw']['blocks'].items()}
    test_whole(report, 'raw', sound, {**FACTS['raw'], 'blocks': shapes})


def sound_part(name, saved):
    """The whole file, and of a refused one what gdb reads too."""
    if name == 'raw':
        return raw_file.registers_once(saved)
    if name == 'zeronum':
        return saved[:BROKEN[name].place + len(MARK)]
    return saved[:BROKEN[name].place] if name in BROKEN else saved


def test_file(report, name):
    saved = (FOLDER / f'{name}.tf').read_bytes()
    sound = sound_part(name, saved)
    test_saved(report, name, saved)
    test_decimal(report, name, saved, sound)
    (test_damaged if name in BROKEN else test_by_number)(report, name, saved)
    if name == 'zeronum':
        test_zero_numbers(report, sound)
    elif name == 'raw':
        test_second_registers(report, saved, sound)
    elif name == 'circular':
        test_read(report, name, Trace(sound), frame_rows(name))
    else:
        test_whole(report, name, saved, FACTS[name])


def test(report):
    same(sorted(path.stem for path in FOLDER.glob('*.tf')), sorted(FACTS), 'files')
    for name in FACTS:
        with report.case(f'{name}: read'):
            test_file(report, name)
    test_two_values(report)
    test_decimal_digits(report)
