"""Every refusal of the table, carried with its number and its sentence."""
import itertools
import pickle
import re
import unittest

from build import BARE, BIG, HEAD, LIMIT, LITTLE, MARK, dat
from cases import Case
from repository import ROOT
from tufakpeni import Pair, Refusal, Refused, Selection, Trace, TraceDat, cut, cut_into, find_fault, join, join_into

FRAME = LITTLE.frame(1, LITTLE.variable(1, 2))
EVERY = Selection([(0, 65535)])


def long_trace(length):
    """A trace of exactly this length, of one frame."""
    block = LITTLE.memory(0, bytes(65535))
    whole, rest = divmod(length - len(BARE) - 6, len(block))
    return LITTLE.trace([], LITTLE.frame(1, *[block] * whole, LITTLE.memory(0, bytes(rest - 11))))


class Table(Case):
    # What C-18 adds to rows of document 01, in its own words, and the words of each row before and after.
    MORE = {
        2: ('2 also for another base', 'byte order not 0 or 1;', 'byte order not 0 or 1; base not 10 or 16;'),
        5: ('5 for a bad digit in the chosen base', 'breaks its form,', 'breaks its form in the chosen base,'),
    }

    def test_sentences_are_the_papers(self):
        """Document 01's table, and then the rows of document 02's requests that have landed."""
        scope = (ROOT / 'docs/papers/01-scope.md').read_text()
        requests = (ROOT / 'docs/papers/02-change-requests.md').read_text()
        rows = re.findall(r'^\| (\d+) \| (.*) \|$', scope, re.M)
        rows += re.findall(r'^\*\*C-11\..* Refusals: (\d+), ([^,]+),', requests, re.M)
        second = re.findall(r'^\*\*C-20\. Two register blocks in one frame\..* Refusals: (\d+), ([^,]+),', requests, re.M)
        rows += [(number, f'{words} in a frame') for number, words in second]
        more, = re.findall(r'^\*\*C-18\..* Refusals: (.*)\.$', requests, re.M)
        self.assertEqual(more, '; '.join(words for words, _, _ in self.MORE.values()))
        table = {int(number): reason for number, reason in rows}
        for number, (_, before, after) in self.MORE.items():
            self.assertIn(before, table[number])
            table[number] = table[number].replace(before, after)
        self.assertEqual(table, {refusal.value: refusal.reason for refusal in Refusal})

    def test_names_are_the_headers(self):
        header = (ROOT / 'include/tufakpeni.h').read_text()
        names = {name: int(number) for name, number in re.findall(r'\bTFK_(\w+) = (\d+),? *(?=/\*)', header)}
        self.assertEqual(names, {refusal.name: refusal.value for refusal in Refusal})

    def test_text(self):
        refused = Refused(3)
        self.assertEqual(str(refused), 'refused 3: the head differs or is cut short')
        self.assertEqual((refused.number, refused.reason), (3, 'the head differs or is cut short'))
        self.assertEqual(refused.where, '')
        self.assertEqual(str(pickle.loads(pickle.dumps(refused))), str(refused))

    def test_text_with_a_place(self):
        refused = Refused(8, 'in frame 3')
        self.assertEqual(str(refused), 'refused 8 in frame 3: a block letter other than R, M, V')
        self.assertEqual((refused.number, refused.where), (8, 'in frame 3'))
        self.assertEqual(str(pickle.loads(pickle.dumps(refused))), str(refused))


class Files(Case):
    """Little-endian files that are refused in both bases, by whichever call is given them."""

    CASES = [
        (1, bytes(LIMIT + 1)), (3, bytes(LIMIT)),
        (3, b''), (3, HEAD[:7]), (3, b'x' + HEAD), (3, HEAD.lower() + b'\n'),
        (4, HEAD), (4, HEAD + b'R 2\n'), (4, HEAD + b'R x'), (4, HEAD + b'R 1\nR 2'),
        (5, HEAD + b'R x\n'), (5, LITTLE.trace(['R 65536'])), (5, LITTLE.trace(['R 1', 'R 1'])),
        (5, LITTLE.trace(['status 1', 'status 1'])),
        (6, BARE + bytes.fromhex('01 00 00 00 00')), (6, BARE + b'\1'),
        (7, BARE + bytes.fromhex('01 00 01 00 00 00')), (7, BARE + bytes.fromhex('01 00 ff ff ff ff')),
        (8, BARE + bytes.fromhex('01 00 01 00 00 00 00')), (8, LITTLE.trace([], FRAME, LITTLE.frame(1, b'r'))),
        (9, LITTLE.trace(['R 2'], LITTLE.frame(1, b'R\xaa'))), (9, LITTLE.trace([], LITTLE.frame(1, b'M' + bytes(9)))),
        (9, LITTLE.trace([], LITTLE.frame(1, b'M' + bytes(8) + b'\1\0'))),
        (9, LITTLE.trace([], LITTLE.frame(1, b'V' + bytes(11)))),
        (10, BARE + bytes.fromhex('01 00 01 00 00 00 52')),
        (6, BARE + b'\0'), (6, LITTLE.trace([], FRAME) + b'\0'), (18, BARE + bytes(2)), (18, BARE + bytes(3)),
        (18, BARE + MARK + b'\0'), (18, BARE + MARK + b'\1'), (18, BARE + MARK + FRAME), (18, BARE + MARK + MARK),
        (18, BARE + bytes.fromhex('00 00 01 00')), (18, BARE + bytes.fromhex('00 00 00 01')),
        (18, LITTLE.trace([], LITTLE.frame(0))), (18, LITTLE.trace([], FRAME, LITTLE.frame(0, LITTLE.variable(1, 2)))),
        (18, BARE + bytes.fromhex('00 00 ff ff ff ff')), (18, LITTLE.trace([], FRAME) + bytes(3)),
        (24, LITTLE.trace(['R 2'], LITTLE.frame(1, b'R\xaa\xbb' * 2))), (24, LITTLE.trace(['R 0'], LITTLE.frame(1, b'RR'))),
    ]

    def test_every_call(self):
        for (number, file), base in itertools.product(self.CASES, (10, 16)):
            with self.subTest(number=number, file=file[:40], base=base):
                self.refused(number, Trace, file, 'little', base)
                self.refused(number, cut, file, EVERY, 'little', base)
                for pair in ((file, BARE), (BARE, file), (file, file)):
                    self.refused(number, join, *pair, 'little', base)
                    self.refused(number, Pair, *pair, 'little', base)

    def test_big(self):
        for number, file in ((6, BARE + b'\0\1\0\0\0'), (6, BARE + b'\0'), (7, BIG.trace([], FRAME)),
                             (8, BIG.trace([], BIG.frame(1, b'x'))), (9, BIG.trace(['R 2'], BIG.frame(1, b'R\xaa'))),
                             (10, BIG.trace([], BIG.frame(1, b'R'))), (18, BARE + bytes(2)), (18, BARE + bytes(5)),
                             (18, BARE + b'\0\0\1\0'), (18, BIG.trace([], BIG.frame(0, BIG.variable(1, 2)))),
                             (24, BIG.trace(['R 2'], BIG.frame(1, b'R\xaa\xbb' * 2)))):
            self.refused(number, Trace, file, 'big')

    def test_the_longest_file(self):
        file = long_trace(LIMIT)
        self.assertEqual(len(file), LIMIT)
        self.assertEqual(Trace(file).frame(0).size, LIMIT - 15)
        one_more = LITTLE.trace([], LITTLE.frame(1))
        self.refused(1, join, file, one_more)
        self.refused(1, Pair, file, one_more)
        self.assertEqual(len(join(file, BARE)), LIMIT)

    def test_the_longest_marked_file(self):
        """The mark alone takes a join over the limit, and where both traces have one it counts once."""
        marked, longer = long_trace(LIMIT - len(MARK)) + MARK, long_trace(LIMIT - len(MARK) + 1)
        self.assertEqual((len(marked), len(Trace(marked)), Trace(marked).marked), (LIMIT, 1, True))
        self.assertEqual(join(marked, BARE + MARK), marked)
        self.assertEqual(join(longer, BARE), longer)
        for call in (join, Pair):
            self.refused(1, call, longer, BARE + MARK)
            self.refused(13, call, longer, LITTLE.trace(['tp']) + MARK)


class Arguments(Case):
    # Each call that takes a byte order and a base, of one file.
    CALLS = [
        Trace,
        find_fault,
        lambda file, *settings: cut(file, EVERY, *settings),
        lambda file, *settings: cut_into(bytearray(100), file, EVERY, *settings),
        lambda file, *settings: join(file, file, *settings),
        lambda file, *settings: join_into(bytearray(100), file, file, *settings),
        lambda file, *settings: Pair(file, file, *settings),
    ]

    def test_byte_order(self):
        for order, call in itertools.product(('middle', '', None, 0, 256), self.CALLS):
            self.refused(2, call, b'', order)
            self.refused(2, call, b'', order, 10)

    def test_base(self):
        """Every integer but 10 and 16, and none is cut to a byte; ahead of the length and of all that is in the file."""
        others = [*range(10), *range(11, 16), *range(17, 300), -1, -6, -240, -246, 2 ** 16 + 10, 2 ** 32 + 16, 2 ** 64,
                  2 ** 64 + 10, 10 - 2 ** 64, 16 - 2 ** 64, True, False]
        for base, call in itertools.product(others, self.CALLS):
            with self.subTest(base):
                for file in (b'', BARE, LITTLE.trace(['R 2'], FRAME)):
                    self.refused(2, call, file, 'little', base)
        self.refused(2, Trace, bytes(LIMIT + 1), 'little', 8)
        for base, call in itertools.product((10, 16), self.CALLS):
            call(BARE, 'little', base)

    def test_an_output_stays_where_the_base_is_wrong(self):
        output = bytearray(b'\xa5' * 100)
        self.refused(2, cut_into, output, BARE, EVERY, 'little', 8)
        self.refused(2, join_into, output, BARE, BARE, 'little', 266)
        self.assertEqual(output, b'\xa5' * 100)

    def test_a_base_that_is_no_integer(self):
        for base, call in itertools.product(('16', '', None, 16.0, b'\x10', [16], (10,)), self.CALLS):
            self.assertRaises(TypeError, call, BARE, 'little', base)

    def test_selections(self):
        for ranges, number in (([(2, 1)], 2), ([(1, 2)] * 9, 2), ([(1, 2)] * 300, 2), ([(1, 1)] * 8, None)):
            if number is None:
                self.assertEqual(cut(BARE, Selection(ranges)), BARE)
            else:
                self.refused(number, cut, BARE, Selection(ranges))
                self.refused(number, cut, b'', Selection(ranges))

    def test_no_room(self):
        file = LITTLE.trace([], FRAME)
        for length in (0, len(file) - 1):
            output = bytearray(b'\xa5' * length)
            self.refused(11, cut_into, output, file, Selection([(1, 1)]))
            self.refused(11, join_into, output, file, BARE)
            self.assertEqual(output, b'\xa5' * length)

    def test_openings_differ(self):
        for first, second in ((BARE, LITTLE.trace(['tp'])), (LITTLE.trace(['tp 1']), LITTLE.trace(['tp 2']))):
            self.refused(13, join, first, second)
            self.refused(13, Pair, first, second)


class Dats(Case):
    def test_refusals(self):
        for number, file in (
                (1, bytes(LIMIT + 1)), (14, b''), (15, BARE), (14, dat()[:-1]), (15, dat(version=b'7\0')),
                (16, dat(cpu_count=1025)), (16, dat(cpus=[(4096, 1)])),
                (17, dat(cpus=[(4096, 8192), (8192, 4096)], rest=bytes(20000)))):
            with self.subTest(number):
                self.refused(number, TraceDat, file)


if __name__ == '__main__':
    unittest.main()
