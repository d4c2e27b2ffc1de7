"""Reading a trace: document 01's cases in both byte orders, and every question about lines, frames and blocks."""
import unittest
from unittest import mock

from build import BARE, BIG, HEAD, LITTLE, MARK
from cases import Case, questions
from repository import ROOT
from tufakpeni import Memory, Pair, Registers, Trace, Variable, _library

TOP = 2 ** 64 - 1
BOTH = (LITTLE, BIG)


class Openings(Case):
    def test_bare(self):
        trace = Trace(BARE)
        self.assertEqual((len(trace), list(trace), trace.lines, bytes(trace.opening)), (0, [], [], BARE))

    def test_kinds(self):
        lines = ['R 0002', 'status 0', 'tp T1', 'tsv 1', 'tdesc ', 'tp', 'R8', 'r 8', 'status', '\r', ' ', 'R\t8']
        kinds = ['R', 'status', 'tp', 'tsv', 'tdesc'] + ['other'] * 7
        trace = Trace(LITTLE.trace(lines, LITTLE.frame(1)))
        self.assertEqual([line.kind for line in trace.lines], kinds)
        self.assertEqual([bytes(line.data).decode() for line in trace.lines], lines)
        self.assertEqual([line.place for line in trace.lines[:3]], [8, 15, 24])
        self.assertEqual(bytes(trace.opening), LITTLE.trace(lines))

    def test_every_byte_but_the_end_may_stand_in_a_line(self):
        line = bytes(range(10)) + bytes(range(11, 256))
        self.assertEqual(bytes(Trace(HEAD + line + b'\n\n').lines[0].data), line)


class RegisterSizes(Case):
    """What an R line says in base 10 and in base 16, which is the default."""

    # What stands after `R `, and its number in each base; None where it is refused there.
    SIZES = [
        ('0', 0, 0), ('9', 9, 9), ('10', 10, 16), ('308', 308, 776), ('776', 776, 1910), ('974', 974, 2420),
        ('9999', 9999, 39321), ('0308', 308, 776), ('00308', 308, None), ('00776', 776, None), ('000776', None, None),
        ('10000', 10000, None), ('65535', 65535, None), ('65536', None, None), ('99999', None, None),
        ('a', None, 10), ('F', None, 15), ('34c', None, 844), ('9c4', None, 2500), ('9C4', None, 2500),
        ('fFfF', None, 65535), ('ffff', None, 65535), ('FFFF', None, 65535), ('0000', 0, 0), ('0ffff', None, None),
        ('', None, None), ('1 ', None, None), (' 1', None, None), ('1\r', None, None), ('-1', None, None),
        ('+1', None, None), ('0x1', None, None), ('308x', None, None), ('3 8', None, None), ('1_0', None, None),
    ]

    def says(self, line, base, size):
        """The line gives register blocks of this size in either byte order, or is refused where it is None."""
        for made in BOTH:
            if size is None:
                self.refused(5, Trace, HEAD + line + b'\n\n', made.order, base)
                continue
            blocks = made.registers(bytes(size)), made.variable(1, -2)
            trace = Trace(HEAD + line + b'\n\n' + made.frame(1, *blocks), made.order, base)
            frame, = trace
            registers, variable = frame.place, frame.place + 1 + size
            self.assertEqual(frame.blocks, [Registers(registers, bytes(size)), Variable(variable, 1, -2)])
            self.assertEqual((trace.register_size, trace.register_line, trace.base), (size, trace.lines[0], base))

    def test_both_bases(self):
        for digits, ten, sixteen in self.SIZES:
            for base, size in ((10, ten), (16, sixteen)):
                with self.subTest(digits, base=base):
                    self.says(f'R {digits}'.encode(), base, size)

    def test_every_byte_as_a_digit(self):
        values = {10: b'0123456789', 16: b'0123456789abcdef'}
        for base, digits in values.items():
            for byte in set(range(256)) - {0x0A}:
                with self.subTest(byte, base=base):
                    value = digits.find(bytes([byte]).lower())
                    self.says(b'R %c' % byte, base, value if value >= 0 else None)
                    self.says(b'R 1%c' % byte, base, base + value if value >= 0 else None)

    def test_sixteen_where_nothing_is_said(self):
        frame = LITTLE.frame(1, LITTLE.registers(bytes(776)))
        self.assertEqual(len(Trace(LITTLE.trace(['R 308'], frame)).frame(0).registers), 776)
        self.refused(9, Trace, LITTLE.trace(['R 776'], frame))
        self.refused(5, Trace, LITTLE.trace(['R 65535']))

    def test_one_file_with_two_readings(self):
        """A size of decimal digits only is another number in each base, and a frame may hold blocks by both."""
        for made in BOTH:
            inner = made.memory(0x4D, bytes(1435))
            file = made.trace(['R 974'], made.frame(1, made.registers(bytes(974)), inner))
            ten, sixteen = (Trace(file, made.order, base).frame(0) for base in (10, 16))
            self.assertEqual(ten.blocks, [Registers(21, bytes(974)), Memory(996, 0x4D, 1435, bytes(1435))])
            self.assertEqual(sixteen.blocks, [Registers(21, bytes(974) + inner)])
            self.assertEqual((len(ten.registers), len(sixteen.registers)), (974, 2420))
            self.assertEqual(bytes(ten.memory(0x4D)), bytes(1435))
            self.refused(12, sixteen.memory, 0x4D)

    def test_without_a_register_block(self):
        for base, size in ((10, 308), (16, 776)):
            for frames in ((), (LITTLE.frame(1, LITTLE.variable(1, 2)),)):
                trace = Trace(LITTLE.trace(['tp T1', 'R 308'], *frames) + MARK, base=base)
                self.assertEqual((trace.register_size, bytes(trace.register_line.data)), (size, b'R 308'))

    def test_without_an_r_line(self):
        for base in (10, 16):
            trace = Trace(LITTLE.trace(['tp T1', 'R308'], LITTLE.frame(1, LITTLE.variable(1, 2))), base=base)
            self.assertEqual((trace.register_size, trace.register_line, trace.base), (None, None, base))

    def test_the_size_is_the_line_s(self):
        trace = Trace(LITTLE.trace(['R 2'], LITTLE.frame(1, LITTLE.registers(b'ab'))))
        with self.assertRaises(AttributeError):
            trace.register_size = 1
        self.assertEqual((trace.register_size, bytes(trace.frame(0).registers)), (2, b'ab'))

    def test_a_base_of_another_type_of_integer(self):
        class Ten:
            def __index__(self):
                return 10

        self.assertEqual(Trace(LITTLE.trace(['R 10']), base=Ten()).register_size, 10)


class Frames(Case):
    def test_one_without_data(self):
        data = BARE + bytes.fromhex('01 00 00 00 00 00')
        for order, tracepoint in (('little', 1), ('big', 256)):
            frame, = Trace(data, order)
            self.assertEqual((frame.number, frame.tracepoint, frame.place, frame.size, bytes(frame.data)),
                             (0, tracepoint, 15, 0, b''))
            self.assertEqual(frame.blocks, [])

    def test_table(self):
        for made in BOTH:
            trace = Trace(made.trace(['R 5'], made.frame(65535, made.registers(b'ABRCD')), made.frame(256),
                                     made.frame(7, made.memory(1, b'xyz'))), made.order)
            self.assertEqual([(f.number, f.tracepoint, f.place, f.size) for f in trace],
                             [(0, 65535, 19, 6), (1, 256, 31, 0), (2, 7, 37, 14)])
            self.assertEqual(bytes(trace.frame(0).data), b'RABRCD')
            self.assertEqual(repr(trace.frame(2)), '<frame 2: tracepoint 7, 14 bytes at 37>')

    def test_all_frames_come_from_one_table(self):
        file = LITTLE.trace([], *(LITTLE.frame(n) for n in range(1, 100)))
        with questions() as asked:
            self.assertEqual([frame.tracepoint for frame in Trace(file)], list(range(1, 100)))
        self.assertEqual([name for name, _ in asked], ['tfk_frame_count', 'tfk_frame_table'])

    def test_no_such_frame(self):
        trace = Trace(LITTLE.trace([], LITTLE.frame(1)))
        for n in (1, -1, 2 ** 64 - 1, 2 ** 64, -2 ** 64):
            self.refused(12, trace.frame, n)

    def test_closed(self):
        trace = Trace(LITTLE.trace([], LITTLE.frame(1, LITTLE.variable(1, 2))))
        frame = trace.frame(0)
        data = frame.data
        with trace:
            self.assertEqual(frame.variable(1), 2)
        for ask in (lambda: frame.data, lambda: frame.blocks, lambda: frame.variable(1), lambda: trace.lines):
            self.assertRaises(ValueError, ask)
        self.assertEqual(data[0], ord('V'))


class Tables(Case):
    """C-19: the table has the place of each frame's registers."""

    LETTERS = b'RRR'

    def made(self, made):
        """The lines and the frames of a trace, and of each frame its registers and how far they stand into its data."""
        memory, block = made.memory(0x52, self.LETTERS), made.registers(b'ab')
        return ['R 2'], [
            ((), None), ((memory, made.variable(1, 0x52)), None), ((block, memory), 1), ((memory, memory, block), 29),
            ((memory, block, memory), 15), ((), None), ((made.registers(b'RR'),), 1), ((made.variable(0x52, 0x52),), None)]

    def places(self, trace):
        return [frame.registers_place for frame in trace]

    def test_places(self):
        for made in BOTH:
            lines, frames = self.made(made)
            file = made.trace(lines, *(made.frame(n + 1, *blocks) for n, (blocks, _) in enumerate(frames)))
            for mark in (b'', MARK):
                trace = Trace(file + mark, made.order)
                expected = [None if at is None else frame.place + at for frame, (_, at) in zip(trace, frames)]
                self.assertEqual(self.places(trace), expected)
                for frame, (blocks, at) in zip(trace, frames):
                    self.agrees(trace, frame)
                    if at is not None:
                        self.assertEqual(bytes(frame.registers), bytes(frame.data[at:at + 2]))

    def agrees(self, trace, frame):
        """With the library's own answer about the file."""
        answer = _library.call('tfk_registers_place', trace._settings, *trace._files, frame.number)
        if frame.registers_place is None:
            self.assertEqual((answer.refusal, answer.place), (12, 0))
            self.refused(12, lambda: frame.registers)
        else:
            self.assertEqual((answer.refusal, answer.place), (0, frame.registers_place))
            self.assertEqual(len(frame.registers), answer.length)

    def test_no_size(self):
        """A block of no bytes is there, and its place may be the file's length."""
        for made in BOTH:
            file = made.trace(['R 0'], made.frame(1, made.registers(b''), made.variable(1, 1)), made.frame(2),
                              made.frame(3, made.memory(1, self.LETTERS), made.registers(b'')))
            trace = Trace(file, made.order)
            self.assertEqual(self.places(trace), [20, None, len(file)])
            self.assertEqual([bytes(trace.frame(n).registers) for n in (0, 2)], [b'', b''])

    def test_no_r_line(self):
        for made in BOTH:
            trace = Trace(made.trace(['tp R 2'], made.frame(1, made.memory(0x52, self.LETTERS)), made.frame(2)), made.order)
            self.assertEqual(self.places(trace), [None, None])
            self.refused(12, lambda: trace.frame(0).registers)

    def test_both_bases(self):
        """One place, and as many bytes from there as the R line says in the base of the trace."""
        for made in BOTH:
            inner = made.memory(0x4D, bytes(1435))
            file = made.trace(['R 974'], made.frame(1, made.registers(bytes(974)), inner))
            ten, sixteen = (Trace(file, made.order, base).frame(0) for base in (10, 16))
            self.assertEqual((ten.registers_place, sixteen.registers_place), (22, 22))
            self.assertEqual((bytes(ten.registers), bytes(sixteen.registers)), (bytes(974), bytes(974) + inner))

    def test_no_question_more(self):
        """Registers of every frame are had without a call, and the R line is looked for once."""
        frames = [LITTLE.frame(n, LITTLE.variable(1, n), LITTLE.registers(bytes([n] * 5))) for n in range(1, 50)]
        trace = Trace(LITTLE.trace(['tp T1', 'R 5'], *frames))
        with mock.patch.object(_library, 'call', side_effect=_library.call) as call:
            self.assertEqual([bytes(frame.registers) for frame in trace], [bytes([n] * 5) for n in range(1, 50)])
        self.assertEqual([given.args[0] for given in call.call_args_list], ['tfk_line_place'] * 2)


class Marks(Case):
    def test_marked_and_not(self):
        for made in BOTH:
            for frames in ((), (made.frame(1),), (made.frame(256), made.frame(256, made.variable(1, 0)))):
                file = made.trace(['R 2', 'tp T1'], *frames)
                for mark in (b'', MARK):
                    with self.subTest(order=made.order, frames=len(frames), mark=mark):
                        trace = Trace(file + mark, made.order)
                        self.assertEqual((trace.marked, len(trace)), (mark == MARK, len(frames)))
                        self.assertEqual(bytes(trace.opening), made.trace(['R 2', 'tp T1']))
                        self.assertEqual([bytes(line.data) for line in trace.lines], [b'R 2', b'tp T1'])

    def test_the_last_frame_ends_before_the_mark(self):
        for made in BOTH:
            blocks = made.registers(b'ab'), made.variable(1, 0), made.memory(16, bytes(4))
            last = Trace(made.trace(['R 2'], made.frame(1), made.frame(2, *blocks)) + MARK, made.order).frame(1)
            self.assertEqual(bytes(last.data), b''.join(blocks))
            self.assertEqual(last.blocks, [Registers(25, b'ab'), Variable(28, 1, 0), Memory(41, 16, 4, bytes(4))])
            self.assertEqual((bytes(last.registers), last.variable(1), bytes(last.memory(18))), (b'ab', 0, bytes(2)))
            self.refused(12, last.memory, 20)

    def test_closed(self):
        with Trace(BARE + MARK) as trace:
            self.assertTrue(trace.marked)
        self.assertRaises(ValueError, lambda: trace.marked)


class Blocks(Case):
    def test_two_registers(self):
        frame, = Trace((ROOT / 'samples/two-registers.tf').read_bytes())
        self.assertEqual(bytes(frame.registers), b'\xaa\xbb')
        self.assertEqual(frame.blocks, [Registers(19, b'\xaa\xbb')])

    def test_records(self):
        for made in BOTH:
            file = made.trace(['R 3', 'status 1'], made.frame(1), made.frame(
                2, made.variable(2 ** 32 - 1, -2 ** 63), made.memory(TOP, b''), made.registers(b'MRV'),
                made.memory(0x4D, b'RRR'), made.variable(5, 2 ** 63 - 1)), made.frame(3, made.registers(b'abc')))
            _, frame, last = Trace(file, made.order)
            self.assertEqual(frame.place, 34)
            self.assertEqual(frame.blocks, [
                Variable(34, 2 ** 32 - 1, -2 ** 63), Memory(47, TOP, 0, b''), Registers(58, b'MRV'),
                Memory(62, 0x4D, 3, b'RRR'), Variable(76, 5, 2 ** 63 - 1)])
            self.assertEqual(last.blocks, [Registers(95, b'abc')])
            self.assertEqual((bytes(frame.registers), bytes(last.registers)), (b'MRV', b'abc'))

    def test_no_registers(self):
        frame, = Trace(LITTLE.trace(['R 2'], LITTLE.frame(1, LITTLE.variable(0x52, 0x52))))
        self.refused(12, lambda: frame.registers)

    def test_registers_of_no_size(self):
        frame, = Trace(LITTLE.trace(['R 0'], LITTLE.frame(1, LITTLE.registers(b''), LITTLE.variable(1, 1))))
        self.assertEqual(bytes(frame.registers), b'')
        self.assertEqual([block.place for block in frame.blocks], [19, 20])

    def test_memory_at_the_top(self):
        for made in BOTH:
            frame, = Trace(made.trace([], made.frame(1, made.memory(TOP, b'\x11\x22'))), made.order)
            self.assertEqual(frame.size, 13)
            self.assertEqual(bytes(frame.memory(TOP)), b'\x11\x22')
            self.assertEqual(bytes(frame.memory(0)), b'\x22')
            for address in (1, TOP - 1, TOP + 1, -1):
                self.refused(12, frame.memory, address)

    def test_memory_of_the_earliest_block(self):
        frame, = Trace(LITTLE.trace([], LITTLE.frame(
            1, LITTLE.memory(10, b''), LITTLE.memory(10, b'first'), LITTLE.memory(8, b'SECOND--'))))
        for address, data in ((8, b'SECOND--'), (9, b'ECOND--'), (10, b'first'), (14, b't'), (15, b'-')):
            self.assertEqual(bytes(frame.memory(address)), data)
        self.refused(12, frame.memory, 16)

    def test_variables(self):
        for made in BOTH:
            frame, = Trace(made.trace([], made.frame(1, made.variable(1, -1), made.variable(2 ** 32 - 1, -2 ** 63))),
                           made.order)
            self.assertEqual([frame.variable(v) for v in (1, 2 ** 32 - 1)], [-1, -2 ** 63])
            for v in (0, 2, 2 ** 32, 2 ** 32 + 1, -1):
                self.refused(12, frame.variable, v)

    def test_the_latest_block_of_a_variable(self):
        """Among others, and bytes that look like a later block of it."""
        for made in BOTH:
            like = made.variable(1, 9)
            for values in ((5,), (5, 6), (6, 5), (5, -1), (5, 7, 6), (5, 6, 5), (6, 6, 6, -2 ** 63)):
                blocks = [made.variable(1, value) + made.variable(2, ~value) + made.memory(7, like) for value in values]
                frames = made.frame(1, *blocks, made.registers(like)), made.frame(1, like), made.frame(1)
                file = made.trace(['R d'], *frames)
                first, second, third = Trace(file, made.order)
                self.assertEqual([first.variable(v) for v in (1, 2)], [values[-1], ~values[-1]])
                self.assertEqual(second.variable(1), 9)
                self.refused(12, third.variable, 1)
                pair = Pair(file, file, made.order)
                self.assertEqual([pair.variable(n, 1) for n in (0, 1, 3, 4)], 2 * [values[-1], 9])
                self.refused(12, pair.variable, 5, 1)


class Bases(Case):
    """A trace and all that comes of it are read in the one base that was given."""

    def test_every_question(self):
        for made in BOTH:
            blocks = made.variable(1, -1), made.registers(bytes(20)), made.memory(8, b'xyz')
            frames = made.frame(1), made.frame(2, *blocks)
            for base, line, wrong in ((10, 'R 20', 16), (16, 'R 14', 10)):
                file = made.trace([line, 'tp T1'], *frames) + MARK
                trace = Trace(file, made.order, base)
                last = trace.frame(1)
                self.assertEqual((len(trace), trace.marked, trace.register_size), (2, True, 20))
                self.assertEqual([bytes(found.data) for found in trace.lines], [line.encode(), b'tp T1'])
                self.assertEqual([type(block) for block in last.blocks], [Variable, Registers, Memory])
                self.assertEqual((bytes(last.registers), last.variable(1)), (bytes(20), -1))
                self.assertEqual(bytes(last.memory(9)), b'yz')
                self.refused(8, Trace, file, made.order, wrong)


class WholeFile(Case):
    """A frame is asked about in a trace of its own; the file itself must answer the same."""

    def test_same_answers(self):
        file = memoryview((ROOT / 'samples/board.tf').read_bytes())
        trace = Trace(file)
        whole = (_library.settings('little', 16), file)
        for frame in trace:
            place = _library.ask('tfk_frame_place', *whole, frame.number)
            self.assertEqual((place.place, place.length), (frame.place, frame.size))
            for k, block in enumerate(frame.blocks):
                record = _library.ask('tfk_block_record', *whole, frame.number, k)
                self.assertEqual((record.place, chr(record.letter)), (block.place, chr(file[block.place])))
                if isinstance(block, Memory):
                    self.same_part('tfk_memory_place', frame.memory, whole, frame.number, block.address)
                elif isinstance(block, Variable):
                    value = _library.ask('tfk_variable', *whole, frame.number, block.number).value
                    self.assertEqual(frame.variable(block.number), value)
                else:
                    self.same_part('tfk_registers_place', lambda: frame.registers, whole, frame.number)

    def same_part(self, name, ask, whole, n, *arguments):
        answer = _library.call(name, *whole, n, *arguments)
        if answer.refusal:
            self.refused(answer.refusal, ask, *arguments)
        else:
            self.assertEqual(ask(*arguments), whole[1][answer.place:answer.place + answer.length])

    def test_listing_reads_each_frame_and_not_the_file(self):
        frames = [LITTLE.frame(1, LITTLE.registers(bytes(100)), LITTLE.variable(1, n)) for n in range(200)]
        file = LITTLE.trace(['R 64'], *frames)
        given = []

        def counted(view, lent=_library.lent):
            given.append(len(view))
            return lent(view)

        with mock.patch.object(_library, 'lent', counted):
            for frame in Trace(file):
                self.assertEqual((len(frame.blocks), len(frame.registers)), (2, 100))
        # Twice for the table; three questions for the blocks of a frame, each with the opening; none for its registers.
        self.assertLess(sum(given), 6 * len(file))


if __name__ == '__main__':
    unittest.main()
