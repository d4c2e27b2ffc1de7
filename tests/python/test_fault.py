"""Where a damaged file is at fault: the earliest frame, the place of its head, the number, and what it takes to find."""
import itertools
import unittest

from build import BARE, BIG, HEAD, LIMIT, LITTLE, MARK
from cases import Case, address, mapped, questions
from tufakpeni import Refused, Trace, find_fault, find_frame

BOTH = (LITTLE, BIG)
BASES = (10, 16)


def most(sound):
    """The most questions that a fault behind so many sound frames takes: one of the whole file, one for the place, and
    two at each of the numbers that are tried, of which half are doublings and half halvings."""
    return 2 + 2 * max(1, 2 * sound.bit_length())


def faulty(made):
    """What is at fault whatever follows, each as its number, the R line, and its bytes."""
    registers = made.registers(b'ab')
    yield from ((8, 'R 2', made.frame(1, b'x')), (8, 'R 2', made.frame(1, registers, b'\0')),
                (9, 'R 2', made.frame(1, registers[:-1])), (9, 'R 2', made.frame(1, made.variable(1, 2)[:-1])),
                (10, 'R2', made.frame(1, registers)), (24, 'R 2', made.frame(1, registers, registers)),
                (18, 'R 2', made.frame(0)), (18, 'R 2', MARK + b'\1'),
                (7, 'R 2', made.number(1, 2) + b'\x7f\x7f\x7f\x7f'))


def last_bytes(made):
    """The same of what is at fault at the file's end only."""
    yield from ((6, 'R 2', b'\1'), (6, 'R 2', b'\0'), (6, 'R 2', b'\1\0\0\0\0'), (18, 'R 2', bytes(2)),
                (18, 'R 2', bytes(3)), (18, 'R 2', bytes(5)), (7, 'R 2', made.frame(1, b'R')[:-1]))


class Faults(Case):
    def sound(self, made, count):
        """Sound frames, of several sizes and without registers, so that an R line is needed for none."""
        shapes = itertools.cycle(((), (made.variable(1, 2),), (made.memory(3, b'xyz'), made.variable(4, -5))))
        return [made.frame(256 + n, *blocks) for n, blocks in zip(range(count), shapes)]

    def is_found(self, made, number, line, sound, rest):
        """The fault of a file of sound frames and the rest, in either base; the frames before it are a trace."""
        front = made.trace([line, 'tp T1'], *sound)
        file = front + b''.join(rest)
        for base in BASES:
            with self.subTest(number=number, file=file, order=made.order, base=base):
                self.assertEqual(find_fault(file, made.order, base), (len(sound), len(front), number))
                self.refused(number, Trace, file, made.order, base)
                self.refused(number, find_frame, file, len(sound), made.order, base)
                trace = Trace(file[:len(front)], made.order, base)
                self.assertEqual([bytes(frame.data) for frame in trace], [frame[6:] for frame in sound])

    def test_every_kind(self):
        """In the first frame, in the last, and in one between; with another fault behind it or none."""
        for made in BOTH:
            for (number, line, frame), before in itertools.product(faulty(made), (0, 1, 2, 3, 6)):
                for behind in ([], self.sound(made, 2), [made.frame(9, b'r'), MARK], [made.frame(0), b'\1']):
                    self.is_found(made, number, line, self.sound(made, before), [frame, *behind])
            for (number, line, end), before in itertools.product(last_bytes(made), (0, 1, 2, 3, 6)):
                self.is_found(made, number, line, self.sound(made, before), [end])

    def test_every_frame(self):
        """The search ends at the right one wherever it stands."""
        for made in BOTH:
            sound = self.sound(made, 40)
            for n in range(40):
                self.is_found(made, 8, 'R 2', sound[:n], [made.frame(9, b'x'), *sound[n + 1:], MARK])
                self.is_found(made, 7, 'R 2', sound[:n], [made.number(9, 2) + b'\x7f' * 4, *sound[n + 1:]])

    def test_accepted(self):
        for made in BOTH:
            for count, end in itertools.product((0, 1, 2, 5), (b'', MARK)):
                self.assertIsNone(find_fault(made.trace(['R 2'], *self.sound(made, count)) + end, made.order))

    def test_ahead_of_the_frames(self):
        broken = LITTLE.frame(1, b'x')
        for number, file in ((1, bytes(LIMIT + 1)), (3, b''), (3, b'\n\n' + broken), (4, HEAD), (4, HEAD + b'R 2\n'),
                             (5, LITTLE.trace(['R x'], broken)), (5, LITTLE.trace(['status 1'] * 2, broken))):
            self.refused(number, find_fault, file)
        for settings in (('middle',), ('little', 8), ('big', 266)):
            self.refused(2, find_fault, LITTLE.trace([], broken), *settings)
            self.refused(2, find_fault, bytes(LIMIT + 1), *settings)

    def test_words(self):
        """The place has its thousands parted, the frame's number has not. Where there is no head, one should start."""
        sound = [LITTLE.frame(1)] * 1234
        for end, words in (
                (LITTLE.frame(1, b'x'), 'refused 8 in frame 1234, whose head stands at byte 7,413: '
                                        'a block letter other than R, M, V'),
                (LITTLE.frame(1, b'x')[:-1], "refused 7 in frame 1234, whose head stands at byte 7,413: "
                                             "a frame's data runs past the file"),
                (b'\1', 'refused 6 in frame 1234, whose head should start at byte 7,413: '
                        '1 to 5 bytes remain where a frame head should start'),
                (bytes(5), 'refused 18 in frame 1234, whose head should start at byte 7,413: a bad end mark')):
            refused = find_fault(LITTLE.trace([], *sound, end)).refused()
            self.assertIsInstance(refused, Refused)
            self.assertEqual(str(refused), words)


class Cost(Case):
    def asked(self, file):
        """The questions that a fault takes, each given a front of the caller's own bytes."""
        with questions() as asked:
            fault = find_fault(file)
        start = address(file)
        self.assertEqual({given[1] for _, given in asked}, {start})
        return fault, asked

    def test_few_questions(self):
        frame, broken = LITTLE.frame(1, LITTLE.variable(1, 2)), LITTLE.frame(1, b'x')
        for sound in (*range(20), 63, 64, 65, 1000, 80_000):
            for rest in (broken, broken + frame * 100, bytes(2), LITTLE.frame(1, b'R')[:-1]):
                fault, asked = self.asked(BARE + frame * sound + rest)
                self.assertEqual(fault[:2], (sound, len(BARE + frame * sound)))
                self.assertLessEqual(len(asked), most(sound))

    def test_the_front_is_all_that_is_read_again(self):
        """But for the first question, no file is given whole that goes on far behind the fault."""
        frame, broken = LITTLE.frame(1, LITTLE.variable(1, 2)), LITTLE.frame(1, b'x')
        fault, asked = self.asked(BARE + frame * 100 + broken + frame * 10_000)
        counted = [length for name, (_, _, length) in [(name, given) for name, given in asked if len(given) == 3][1:]]
        self.assertEqual(fault.frame, 100)
        self.assertLessEqual(max(counted), len(BARE) + 2 * 100 * len(frame))

    def test_a_map_can_be_closed_after(self):
        for file, fault in ((BARE, None), (BARE + LITTLE.frame(1, b'x'), (0, 9, 8))):
            data = mapped(file)
            self.assertEqual(find_fault(data), fault)
            data.close()


if __name__ == '__main__':
    unittest.main()
