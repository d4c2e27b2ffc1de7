"""Cuts, joins and pairs."""
import unittest

from build import BARE, BIG, LITTLE, MARK
from cases import Case
from tufakpeni import Pair, Selection, Trace, _library, cut, cut_into, join, join_into

LINES = ['R 2', 'tp T1']


class Cuts(Case):
    def setUp(self):
        self.frames = [LITTLE.frame(n, LITTLE.registers(bytes([n, i])), LITTLE.variable(i, -i))
                       for i, n in enumerate((1, 2, 1, 30, 9, 2))]

    def cut(self, *arguments):
        return cut(LITTLE.trace(LINES, *self.frames), Selection(*arguments))

    def of(self, *chosen):
        return LITTLE.trace(LINES, *(self.frames[i] for i in chosen))

    def test_keep(self):
        self.assertEqual(self.cut([(1, 1)]), self.of(0, 2))
        self.assertEqual(self.cut([(2, 9), (5, 20)]), self.of(1, 4, 5))
        self.assertEqual(self.cut([(0, 65535)]), self.of(*range(6)))
        self.assertEqual(self.cut([]), self.of())

    def test_drop(self):
        self.assertEqual(self.cut([(1, 1)], False), self.of(1, 3, 4, 5))
        self.assertEqual(self.cut([], False), self.of(*range(6)))

    def test_eight_ranges(self):
        self.assertEqual(self.cut([(7, 7)] * 7 + [(9, 9)]), self.of(4))

    def test_big(self):
        frames = [BIG.frame(n, BIG.variable(n, n)) for n in (1, 256, 2)]
        self.assertEqual(cut(BIG.trace([], *frames), Selection([(1, 2)]), 'big'), BIG.trace([], frames[0], frames[2]))

    def test_both_senses_share_the_frames(self):
        file, chosen = LITTLE.trace(LINES, *self.frames), Selection([(1, 1), (9, 9)])
        lengths = [len(cut(file, selection)) for selection in (chosen, chosen.opposite())]
        self.assertEqual(sum(lengths), len(file) + len(LITTLE.trace(LINES)))


    def test_the_end_mark_is_kept(self):
        file = LITTLE.trace(LINES, *self.frames) + MARK
        for selection, chosen in (([(1, 1)], (0, 2)), ([(0, 65535)], range(6)), ([], ()), ([(0, 0)], ())):
            self.assertEqual(cut(file, Selection(selection)), self.of(*chosen) + MARK)
        lengths = [len(cut(file, Selection([(1, 1)], keep))) for keep in (True, False)]
        self.assertEqual(sum(lengths), len(file) + len(LITTLE.trace(LINES)) + len(MARK))


class Selections(Case):
    def test_opposite(self):
        keep = Selection([(1, 2), (3, 3)])
        self.assertEqual(keep.opposite(), Selection(((1, 2), (3, 3)), False))
        self.assertEqual(keep.opposite().opposite(), keep)
        nine = Selection([(n, n) for n in range(9)])
        self.assertEqual(nine.opposite().ranges, nine.ranges)

    def test_the_librarys_opposite_keeps_all_else(self):
        given = Selection([(n, n + 1) for n in range(8)]).numbers()
        answer = _library.call('tfk_opposite', given)
        self.assertEqual([(r.low, r.high) for r in answer.ranges], [(r.low, r.high) for r in given.ranges])
        self.assertEqual((given.count, given.keep, answer.count, answer.keep), (8, 1, 8, 0))

    def test_numbers_of_16_bits(self):
        for ranges in ([(0, 65536)], [(-1, 5)], [(1, 2)] * 8 + [(0, 65536)]):
            self.assertRaises(ValueError, Selection, ranges)
        for ranges in ([1], [(1, 2, 3)], [('1', '2')]):
            self.assertRaises((TypeError, ValueError), Selection, ranges)


class Joins(Case):
    def test_frames_of_both(self):
        for made in (LITTLE, BIG):
            first = [made.frame(n, made.registers(bytes([n, 0]))) for n in (3, 4)]
            second = [made.frame(5, made.variable(6, 7))]
            joined = join(made.trace(LINES, *first), made.trace(LINES, *second), made.order)
            self.assertEqual(joined, made.trace(LINES, *first, *second))

    def test_the_bare_opening(self):
        file = LITTLE.trace([], LITTLE.frame(1))
        self.assertEqual([join(file, BARE), join(BARE, file), join(BARE, BARE)], [file, file, BARE])


    def test_one_end_mark(self):
        for made in (LITTLE, BIG):
            frames = made.frame(3, made.variable(1, 0)), made.frame(4, made.variable(1, 0))
            first, second = (made.trace(LINES, frame) for frame in frames)
            both = made.trace(LINES, *frames)
            for marks, joined in (((b'', b''), both), ((MARK, b''), both + MARK), ((b'', MARK), both + MARK),
                                  ((MARK, MARK), both + MARK)):
                self.assertEqual(join(first + marks[0], second + marks[1], made.order), joined)
                output = bytearray(len(joined) - 1)
                self.refused(11, join_into, output, first + marks[0], second + marks[1], made.order)
                pair = Pair(first + marks[0], second + marks[1], made.order)
                self.assertEqual([bytes(pair.frame(n).data) for n in (0, 1)], [frame[6:] for frame in frames])
                self.refused(12, pair.frame, 2)

    def test_the_marked_bare_opening_is_no_unit(self):
        file = LITTLE.trace([], LITTLE.frame(1))
        self.assertEqual([join(file, BARE + MARK), join(BARE + MARK, file)], [file + MARK] * 2)


class Bases(Case):
    """Traces with their R line in decimal and in hexadecimal: each call reads them in the base that it is given."""

    def setUp(self):
        self.frames = [LITTLE.frame(n, LITTLE.registers(bytes(20)), LITTLE.variable(1, n)) for n in (1, 2, 3)]

    def of(self, base, *chosen):
        return LITTLE.trace(['R 20' if base == 10 else 'R 14'], *(self.frames[i] for i in chosen))

    def test_cut(self):
        for base in (10, 16):
            output = bytearray(200)
            self.assertEqual(cut(self.of(base, 0, 1, 2), Selection([(2, 3)]), base=base), self.of(base, 1, 2))
            length = cut_into(output, self.of(base, 0, 1, 2), Selection([(2, 3)]), base=base)
            self.assertEqual(output[:length], self.of(base, 1, 2))

    def test_join(self):
        for base in (10, 16):
            output = bytearray(200)
            self.assertEqual(join(self.of(base, 0), self.of(base, 1, 2), base=base), self.of(base, 0, 1, 2))
            length = join_into(output, self.of(base, 0), self.of(base, 1, 2), base=base)
            self.assertEqual(output[:length], self.of(base, 0, 1, 2))

    def test_pair(self):
        for base in (10, 16):
            pair = Pair(self.of(base, 0), self.of(base, 1, 2), base=base)
            self.assertEqual([bytes(pair.frame(n).data) for n in range(3)], [frame[6:] for frame in self.frames])
            self.assertEqual([pair.variable(n, 1) for n in range(3)], [1, 2, 3])

    def test_the_other_base(self):
        every, output = Selection([(0, 65535)]), bytearray(200)
        for base, other in ((10, 16), (16, 10)):
            file = self.of(base, 0)
            self.refused(8, cut, file, every, 'little', other)
            self.refused(8, cut_into, output, file, every, 'little', other)
            for call in (join, Pair):
                self.refused(8, call, file, file, 'little', other)
            self.refused(8, join_into, output, file, file, 'little', other)
        self.assertEqual(output, bytes(200))

    def test_sixteen_where_nothing_is_said(self):
        file, every = self.of(16, 0), Selection([(0, 65535)])
        self.assertEqual((cut(file, every), join(file, self.of(16))), (file, file))
        self.assertEqual((cut_into(bytearray(200), file, every), join_into(bytearray(200), file, self.of(16))),
                         (len(file), len(file)))
        self.assertEqual(Pair(file, file).variable(1, 1), 1)

    def test_the_same_size_in_another_base_is_another_opening(self):
        self.refused(8, join, self.of(10, 0), self.of(16, 0), 'little', 16)
        self.refused(13, join, self.of(10), self.of(16), 'little', 16)


class Pairs(Case):
    def test_as_if_joined(self):
        for made in (LITTLE, BIG):
            first = made.trace(LINES, made.frame(1, made.variable(1, -1)), made.frame(2))
            second = made.trace(LINES, made.frame(3, made.registers(b'ab'), made.variable(1, 5), made.variable(1, 6)))
            pair, joined = Pair(first, second, made.order), Trace(join(first, second, made.order), made.order)
            self.assertEqual([bytes(pair.frame(n).data) for n in range(3)], [bytes(frame.data) for frame in joined])
            self.assertEqual([pair.frame(n)[:2] for n in range(3)], [(0, 25), (0, 44), (1, 25)])
            self.assertEqual([pair.variable(n, 1) for n in (0, 2)], [-1, 6])
            for n, v in ((0, 2), (0, 2 ** 32 + 1), (0, -1), (1, 1), (3, 1), (-1, 1)):
                self.refused(12, pair.variable, n, v)
            for n in (3, -1, 2 ** 64, 2 ** 64 + 1):
                self.refused(12, pair.frame, n)

    def test_without_frames(self):
        self.refused(12, Pair(BARE, BARE).frame, 0)


if __name__ == '__main__':
    unittest.main()
