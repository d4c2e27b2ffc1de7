"""How many instructions a frame of 796 bytes takes on the handset's core, by the emulator's log of tests/handset/count.c: it has a line for each."""
import re
import tempfile
from pathlib import Path

from core import EMULATE, ROOT, output_of

FRAMES = 10
QUESTIONS = ['tfk_frame_count', 'tfk_frame_table', 'tfk_registers_place', 'tfk_variable', 'tfk_cut', 'memcpy']
STATED = re.compile(r'^\| [^|]*\(`(\w+)`\) \| ([0-9,]+) \|', re.M)


def stated():
    """What docs/PERFORMANCE.md says: at most so many."""
    return {name: int(number.replace(',', '')) for name, number in STATED.findall((ROOT / 'docs/PERFORMANCE.md').read_text())}


def one_by_one():
    """The emulator's word for one instruction at a time, so that each has its line; it has changed with the years."""
    return next(word for word in ('-one-insn-per-tb', '-singlestep') if word in output_of('qemu-riscv64', '-help'))


def marked_lines(program):
    """The numbers of the log's lines where the program came to its mark."""
    place = re.search(r'^([0-9a-f]+) T mark$', output_of('riscv64-linux-gnu-nm', program), re.M)[1]
    with tempfile.TemporaryDirectory() as folder:
        log = Path(folder, 'log')
        output_of(EMULATE, one_by_one(), '-d', 'exec,nochain', '-D', log, program)
        with log.open() as lines:
            return [number for number, line in enumerate(lines) if f'/{place}/' in line]


def per_frame(program):
    """A question stands between two marks, first about FRAMES frames and then about twice as many."""
    marks = marked_lines(program)
    taken = [behind - before for before, behind in zip(marks, marks[1:])]
    once, twice = taken[:len(QUESTIONS)], taken[len(QUESTIONS) + 1:]
    if len(twice) != len(QUESTIONS):
        raise ValueError(f'the log has {len(marks)} marks')
    return {name: (second - first) / FRAMES for name, first, second in zip(QUESTIONS, once, twice)}
