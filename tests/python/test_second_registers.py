"""Two register blocks in one frame, 24: judged at the second letter `R` that is met, and in no other case."""
import unittest

from build import BIG, LITTLE, MARK
from cases import Case
from tufakpeni import (
    Memory, Pair, Registers, Selection, Trace, Variable, _library, cut, cut_into, find_fault, join, join_into)

BOTH = (LITTLE, BIG)
BASES = (10, 16)
EVERY = Selection([(0, 65535)])


def broken(made):
    """Files in one byte order, each as its number, its lines and the blocks of its frames. A size of one digit is the
    same in both bases."""
    r, m, v = made.registers(b'ab'), made.memory(7, b'xyz'), made.variable(1, -2)
    past = b'M' + made.number(7, 8) + made.number(100, 2)
    two, none = ['R 2'], ['R 0']
    return [
        (24, two, [r, r]), (24, two, [r, r, r]), (24, ['tp T1', 'R 2'], [r, r]),
        (24, two, [r, v, r]), (24, two, [r, m, r]), (24, two, [v, m, r, m, v, m, r, v]),
        # the second block cut short: no 9; and one that is past the data ahead of it
        (24, two, [r, r[:-1]]), (24, two, [r, b'R']), (24, two, [m, r, v, b'R']), (9, two, [r, past, r]),
        (9, two, [r[:-1]]), (9, two, [r, v[:-1]]), (9, two, [r, m[:-1]]),
        # a bad letter before the second is met, and one behind it is not
        (8, two, [r, b'x', r]), (8, two, [b'x', r, r]), (8, two, [r, v, b'r', r]), (24, two, [r, r, b'x']),
        (24, two, [r, b'Rx']), (24, two, [r, v, r, b'\0']),
        # no R line: the first block is refused already
        (10, [], [r, r]), (10, [], [b'R', b'R']), (10, ['R2'], [v, r, r]),
        (24, none, [b'R', b'R']), (24, none, [b'R', v, b'R']), (24, none, [b'RRRR']), (8, none, [b'R', b'x', b'R']),
        # frame by frame
        (24, two, [r], [r, r]), (24, two, [], [r], [m, r, r]), (24, two, [r, r], [b'x']), (24, two, [r, r], [r[:-1]]),
        (8, two, [b'x'], [r, r]), (9, two, [r[:-1]], [r, r]), (8, two, [r, b'x'], [r, r]),
    ]


def files():
    """The same in both orders and bases, each as its number, the file, its opening, and the settings."""
    for made in BOTH:
        for number, lines, *frames in broken(made):
            file = made.trace(lines, *(made.frame(n, *blocks) for n, blocks in enumerate(frames, 1)))
            for base in BASES:
                yield number, file, made.trace(lines), (made.order, base)


class Files(Case):
    # The library's questions about one trace that read all of it, and what they are asked beside it.
    QUESTIONS = {
        'frame_count': (), 'end_mark': (), 'frame_table': ((_library.FrameRecord * 4)(), 4), 'line_place': (0,),
        'block_record': (0, 0), 'registers_place': (0,), 'memory_place': (0, 7), 'variable': (0, 1),
    }

    def test_every_call(self):
        for number, file, opening, settings in files():
            with self.subTest(number=number, file=file, settings=settings):
                self.refused(number, Trace, file, *settings)
                for selection in (EVERY, Selection([]), Selection([(1, 1)]), Selection([(1, 2)], False)):
                    self.refused(number, cut, file, selection, *settings)
                for pair in ((file, opening), (opening, file), (file, file)):
                    self.refused(number, join, *pair, *settings)
                    self.refused(number, Pair, *pair, *settings)

    def test_an_output_stays(self):
        for number, file, opening, settings in files():
            for length in (0, 400):
                with self.subTest(number=number, file=file, settings=settings, length=length):
                    output = bytearray(b'\xa5' * length)
                    self.refused(number, cut_into, output, file, EVERY, *settings)
                    self.refused(number, join_into, output, file, opening, *settings)
                    self.refused(number, join_into, output, opening, file, *settings)
                    self.assertEqual(output, b'\xa5' * length)

    def test_every_question(self):
        """Trace and Pair ask most of them of a file that was read already; each refuses it by itself too."""
        for number, file, opening, (order, base) in files():
            for name, arguments in self.QUESTIONS.items():
                self.asked(number, name, order, base, [file], arguments)
            # A frame's place is refused for the blocks of that frame.
            self.asked(number, 'frame_place', order, base, [file], (find_fault(file, order, base).frame,))
            for pair in ((file, opening), (opening, file)):
                self.asked(number, 'pair_place', order, base, pair, (0,))
                self.asked(number, 'pair_variable', order, base, pair, (0, 1))

    def asked(self, number, name, order, base, traces, arguments):
        with self.subTest(name, number=number, traces=traces, order=order, base=base):
            settings = _library.settings(order, base)
            answer = _library.call(f'tfk_{name}', settings, *map(memoryview, traces), *arguments)
            self.assertEqual(answer.refusal, number)


class Order(Case):
    """What comes before 24, and what it comes before."""

    def test_what_follows_the_frame(self):
        for made in BOTH:
            file = made.trace(['R 2'], made.frame(1, made.registers(b'ab') * 2))
            for rest in (MARK, b'\0', bytes(3), MARK + b'\1', b'\1\0\0', made.frame(0), made.frame(2, b'x')):
                self.refused(24, Trace, file + rest, made.order)
            self.refused(7, Trace, file[:-1], made.order)
            self.refused(7, Trace, file[:-3], made.order)

    def test_arguments(self):
        file = LITTLE.trace(['R 2'], LITTLE.frame(1, b'Rab' * 2))
        self.refused(2, Trace, file, 'middle')
        self.refused(2, Trace, file, 'little', 8)
        self.refused(2, cut, file, Selection([(2, 1)]))

    def test_two_files(self):
        """The first file's faults come first; that the openings differ comes after both."""
        twice, letter = (LITTLE.trace(['R 2'], LITTLE.frame(1, data)) for data in (b'Rab' * 2, b'x'))
        for call in (join, Pair):
            for number, other in ((8, letter), (18, LITTLE.trace(['R 2']) + bytes(2))):
                self.refused(24, call, twice, other)
                self.refused(number, call, other, twice)
            self.refused(24, call, twice, LITTLE.trace([]))
            self.refused(24, call, LITTLE.trace([]), twice)


class Accepted(Case):
    def test_one_block_in_each_frame(self):
        for made in BOTH:
            r, v = made.registers, made.variable(1, -2)
            frames = [made.frame(1, v, r(b'ab')), made.frame(1, r(b'cd'), v), made.frame(1), made.frame(2, r(b'ef'))]
            file = made.trace(['R 2'], *frames)
            registers = [b'ab', b'cd', b'', b'ef']
            self.assertEqual(self.registers(file, made.order), registers)
            self.assertEqual(self.registers(cut(file, Selection([(1, 1)]), made.order), made.order), registers[:3])
            joined = join(file, file + MARK, made.order)
            self.assertEqual(joined, made.trace(['R 2'], *frames, *frames) + MARK)
            self.assertEqual(self.registers(joined, made.order), registers * 2)
            pair = Pair(file, file, made.order)
            self.assertEqual([bytes(pair.frame(n).data) for n in range(8)], [frame[6:] for frame in frames * 2])
            self.assertEqual(pair.variable(5, 1), -2)

    def registers(self, file, order):
        """The bytes of each frame's register blocks, with none for a frame that has none; they are what is answered."""
        found = []
        for frame in Trace(file, order):
            blocks = [bytes(block.data) for block in frame.blocks if isinstance(block, Registers)]
            self.assertLessEqual(len(blocks), 1)
            if blocks:
                self.assertEqual(bytes(frame.registers), *blocks)
            else:
                self.refused(12, lambda: frame.registers)
            found.append(b''.join(blocks))
        return found

    def test_bytes_that_are_all_r(self):
        """No byte within a block, a head or a line is a letter."""
        r, address = 0x52525252, 0x5252525252525252
        for made in BOTH:
            memory = made.memory(address, b'R' * 0x5252)
            blocks = memory, made.registers(b'R' * 8), made.variable(r, address), memory
            file = made.trace(['RRRR', 'R 8', 'R'], made.frame(0x5252, *blocks), made.frame(0x5252, b'R' * 9))
            for base in BASES:
                first, second = Trace(file, made.order, base)
                self.assertEqual([block[1:] for block in first.blocks], [
                    (address, 0x5252, b'R' * 0x5252), (b'R' * 8,), (r, address), (address, 0x5252, b'R' * 0x5252)])
                self.assertEqual([type(block) for block in first.blocks], [Memory, Registers, Variable, Memory])
                self.assertEqual([bytes(frame.registers) for frame in (first, second)], [b'R' * 8] * 2)
                self.assertEqual(cut(file, EVERY, made.order, base), file)

    def test_no_bytes(self):
        for made in BOTH:
            frames = made.frame(1, b'R'), made.frame(1, b'R', made.variable(1, 2)), made.frame(2, b'R')
            file = made.trace(['R 0'], *frames)
            self.assertEqual(self.registers(file, made.order), [b''] * 3)
            self.assertEqual([len(frame.blocks) for frame in Trace(file, made.order)], [1, 2, 1])

    def test_the_size_decides(self):
        """The same bytes are one block, two, or a bad letter, as the R line says."""
        for made in BOTH:
            for size, number in ((5, None), (2, 24), (0, 8), (1, 8), (3, 8), (4, 8), (6, 9)):
                file = made.trace([f'R {size}'], made.frame(1, b'RABRCD'))
                if number is None:
                    self.assertEqual(self.registers(file, made.order), [b'ABRCD'])
                else:
                    self.refused(number, Trace, file, made.order)

    def test_the_base_decides(self):
        """In the other base a register block ends early or late, and a byte `R` there is a second letter."""
        for made in BOTH:
            sixteen = made.frame(1, made.registers(b'R' * 16))
            ten = made.frame(1, made.registers(bytes(10)), made.memory(0x5252525252525252, b''))
            for size, other, frame in ((16, 10, sixteen), (10, 16, ten)):
                file = made.trace(['R 10'], frame)
                self.assertEqual(len(Trace(file, made.order, size).frame(0).registers), size)
                self.refused(24, Trace, file, made.order, other)


if __name__ == '__main__':
    unittest.main()
