"""One frame by its number: what is found, what is refused, and how little of the file is read."""
import collections
import itertools
import random
import signal
import subprocess
import sys
import unittest

from build import BARE, BIG, HEAD, LIMIT, LITTLE, MARK
from cases import Case, questions
from repository import ROOT
from tufakpeni import Memory, Refusal, Refused, Trace, Variable, find_frame

BOTH = (LITTLE, BIG)
BASES = (10, 16)
LINES = ['tp R 9', 'R 2', 'status 1']
OPENING = LITTLE.trace(LINES)
ABSENT = (2 ** 63, 2 ** 64 - 1, 2 ** 64, 2 ** 64 + 1, -1, -2 ** 64)


def frames(made):
    """Frames of every shape, the registers first, last, within and not there."""
    r, m, v = made.registers(b'MR'), made.memory(0x4D, b'RRR'), made.variable(0x52, -2)
    blocks = [(r, m, v), (), (v, m), (m, v, m, r), (made.memory(2 ** 64 - 1, b'xy'), r, made.variable(1, 2), v), (r,)]
    return [made.frame(256 + n, *each) for n, each in enumerate(blocks)]


def answer(ask, *arguments):
    """What is answered, bytes in place of views; the number of a refusal."""
    try:
        found = ask(*arguments)
    except Refused as refused:
        return refused.number
    return bytes(found) if isinstance(found, memoryview) else found


def told(frame):
    """All that a frame tells."""
    addresses = [0, 1, *(block.address + at for block in frame.blocks if isinstance(block, Memory) for at in (0, 1, 3))]
    numbers = [0, 1, *(block.number for block in frame.blocks if isinstance(block, Variable))]
    return (frame.number, frame.tracepoint, frame.place, frame.size, frame.registers_place, repr(frame), frame.blocks,
            bytes(frame.data), answer(lambda: frame.registers),
            [answer(frame.memory, address % 2 ** 64) for address in addresses],
            [answer(frame.variable, number) for number in numbers])


class Accepted(Case):
    """In a trace that is accepted the frame is that of the trace."""

    def test_every_frame(self):
        for made in BOTH:
            for end, base in ((b'', 10), (b'', 16), (MARK, 10), (MARK, 16)):
                file = made.trace(LINES, *frames(made)) + end
                trace = Trace(file, made.order, base)
                for frame in trace:
                    found = find_frame(file, frame.number, made.order, base)
                    self.assertEqual(told(found), told(frame))
                    self.assertEqual(found.heads, frame.number + 1)
                    self.assertEqual(found.description.record.registers_place, frame.registers_place or 0)
                self.described(find_frame(file, 0, made.order, base).description, trace)
                for n in (len(trace), len(trace) + 1, *ABSENT):
                    self.refused(12, find_frame, file, n, made.order, base)

    def described(self, description, trace):
        """The description is that of the trace."""
        names = ('opening', 'lines', 'register_line', 'register_size', 'base')
        for name in names:
            self.assertEqual(getattr(description, name), getattr(trace, name), name)

    def test_the_base_decides(self):
        for made in BOTH:
            file = made.trace(['R 10'], made.frame(1), made.frame(1, made.registers(bytes(16))))
            self.assertEqual(bytes(find_frame(file, 1, made.order).registers), bytes(16))
            self.refused(8, find_frame, file, 1, made.order, 10)
            self.assertEqual(find_frame(file, 0, made.order, 10).size, 0)

    def test_files(self):
        for name in ('board', 'gdb', 'marked', 'masks', 'two-registers'):
            file = (ROOT / f'samples/{name}.tf').read_bytes()
            for frame in Trace(file):
                self.assertEqual(told(find_frame(file, frame.number)), told(frame), name)

    def test_no_frames(self):
        for end in (b'', MARK):
            self.refused(12, find_frame, BARE + end, 0)
            self.refused(12, find_frame, OPENING + end, 0)


def changed(frame, at, data):
    """The frame with other bytes from a place of it on."""
    return frame[:at] + data + frame[at + len(data):]


# Data that are refused as such, by number, where registers have two bytes; in either byte order.
BLOCK_FAULTS = {8: b'x', 9: b'M' + bytes(9), 24: b'Rab' * 2}


class Damaged(Case):
    """What a fault elsewhere does to each frame of a file, and what its own does."""

    def finds(self, made, pieces, *expected, lines=LINES, base=16):
        """Of a file of these pieces each frame is found as the piece that is expected, or refused with that number."""
        file = made.trace(lines, *pieces)
        for n, piece in enumerate(expected):
            with self.subTest(order=made.order, n=n, file=file):
                if isinstance(piece, int):
                    self.refused(piece, find_frame, file, n, made.order, base)
                else:
                    self.is_piece(made, file, n, piece, lines, base)

    def is_piece(self, made, file, n, piece, lines, base):
        """The frame is what it is alone, but for its place."""
        found, = Trace(made.trace(lines, piece), made.order, base)
        frame = find_frame(file, n, made.order, base)
        self.assertEqual((frame.number, frame.heads, frame.place), (n, n + 1, file.index(piece) + 6))
        self.assertEqual([block[1:] for block in frame.blocks], [block[1:] for block in found.blocks])
        self.assertEqual((frame.tracepoint, bytes(frame.data)), (found.tracepoint, piece[6:]))
        self.assertEqual(answer(lambda: frame.registers), answer(lambda: found.registers))

    def test_blocks_of_one_frame(self):
        """They count for that frame alone, whether it stands before frame n or behind it."""
        for made in BOTH:
            for number, data in BLOCK_FAULTS.items():
                for base in BASES:
                    a, b, _, d, e, _ = pieces = frames(made)
                    pieces[2] = made.frame(9, data)
                    self.finds(made, pieces[:5], a, b, number, d, e, 12, 12, base=base)
                    self.finds(made, pieces[2:5], number, d, e, 12)
                    self.finds(made, pieces[:3], a, b, number, 12)

    def test_no_r_line(self):
        for made in BOTH:
            a, b = made.frame(1, made.variable(1, 2)), made.frame(2, made.memory(3, b'RR'))
            self.finds(made, [a, made.frame(1, b'R'), b], a, 10, b, 12, lines=['R8'])

    def test_size_of_an_earlier_frame(self):
        for made in BOTH:
            a, b, c, d, e, f = frames(made)
            for size in (2 ** 32 - 1, len(c + d + e + f) + 1):
                past = changed(b, 2, made.number(size, 4))
                self.finds(made, [a, past, c, d, e, f], a, 7, 7, 7, 7, 7, 7, 7)
            # A size that ends where another frame does: the heads behind are where they were.
            over = changed(b, 2, made.number(len(c), 4))
            self.finds(made, [a, over, c, d, e], a, 8, d, e, 12)

    def test_its_head(self):
        for made in BOTH:
            a, b, c, d, *_ = frames(made)
            self.finds(made, [a, b, changed(c, 0, bytes(2)), d], a, b, 18, 18, 18)
            self.finds(made, [a, b, changed(c, 2, b'\x7f\x7f\x7f\x7f'), d], a, b, 7, 7, 7)
            self.finds(made, [a, b, changed(c, 2, made.number(len(c + d) - 5, 4)), d], a, b, 7, 7)
            self.finds(made, [a, b, changed(c, 2, made.number(len(c + d) - 6, 4)), d], a, b, 8, 12)

    def test_where_a_head_should_start(self):
        """Bytes that are no head, behind two frames."""
        ends = {6: [b'\0', b'\1', b'\0\1', b'\1\0\0', b'\1\0\0\0', b'\0\1\0\0\0', b'RRRRR'],
                18: [bytes(2), bytes(3), b'\0\0\1', b'\0\0\1\0', b'\0\0\0\1', bytes(5), MARK + b'\1', bytes(6),
                     MARK * 2, MARK + b'RRRR', b'\0\0' + b'\xff' * 4],
                12: [b'', MARK]}
        for made in BOTH:
            a, b, *_ = frames(made)
            for number, pieces in ends.items():
                for piece in pieces:
                    self.finds(made, [a, b, piece], a, b, number, number)
                    self.finds(made, [piece], number, number)
                    for n in ABSENT:
                        self.refused(number, find_frame, made.trace(LINES, a, b, piece), n, made.order)

    def test_words(self):
        """A frame's own blocks are named; what is refused before them is no matter of the frame alone."""
        r, v = LITTLE.registers(b'ab'), LITTLE.variable(1, 2)
        file = LITTLE.trace(['R 2'], *(LITTLE.frame(1, *blocks) for blocks in ((r,), (b'x',), (v[:-1],), (r, r))))
        for n, words in ((1, 'refused 8 in frame 1: a block letter other than R, M, V'),
                         (2, "refused 9 in frame 2: a block runs past its frame's data"),
                         (3, 'refused 24 in frame 3: a second `R` block in a frame'),
                         (4, f'refused 12: {Refusal.NOT_FOUND.reason}')):
            self.assertRaisesRegex(Refused, f'^{words}$', find_frame, file, n)
        self.assertRaisesRegex(Refused, '^refused 10 in frame 0: ', find_frame, BARE + LITTLE.frame(1, b'R'), 0)
        self.assertRaisesRegex(Refused, "^refused 7: a frame's data runs past the file$", find_frame, file[:-1], 3)
        self.assertRaisesRegex(Refused, '^refused 18: a bad end mark$', find_frame, file + bytes(2), 4)


class Ahead(Case):
    """What is refused ahead of the frames."""

    def test_openings(self):
        for number, file in ((1, bytes(LIMIT + 1)), (3, b''), (3, HEAD[:7]), (3, b'\n\n' + BARE), (4, HEAD),
                             (4, HEAD + b'R x'), (5, HEAD + b'R x\n'), (5, LITTLE.trace(['R 1', 'R 1'], LITTLE.frame(1)))):
            for n in (0, 1, 2 ** 63):
                self.refused(number, find_frame, file, n)

    def test_settings(self):
        file = LITTLE.trace([], LITTLE.frame(1))
        for settings in (('middle',), ('',), (None,), ('little', 8), ('little', 266), ('big', 0), ('little', -6)):
            for data in (file, b'', bytes(LIMIT + 1)):
                self.refused(2, find_frame, data, 0, *settings)
        for base in ('16', None, 16.0):
            self.assertRaises(TypeError, find_frame, file, 0, 'little', base)

    def test_an_index_that_is_no_integer(self):
        for n in ('0', None, 0.0, b'\0', [0]):
            self.assertRaises(TypeError, find_frame, LITTLE.trace([], LITTLE.frame(1)), n)


def read(pieces, n):
    """The places that are read for frame n of these pieces: the opening, the heads up to its own, and its data. Behind
    the last of them it is up to six bytes."""
    starts = list(itertools.accumulate(map(len, pieces), initial=len(OPENING)))
    heads = (place for start in starts[:n + 1] for place in range(start, start + 6))
    return {*range(len(OPENING)), *heads, *(range(starts[n], starts[n + 1]) if n < len(pieces) else ())}


def otherwise(chance, file, kept):
    """The file with every byte changed but those at the places that are kept."""
    return bytes(byte if at in kept else byte ^ chance.randrange(1, 256) for at, byte in enumerate(file))


class Unread(Case):
    """Bytes that are not read make no difference."""

    TAILS = (b'', MARK, b'\1', bytes(3), MARK + b'RRRR', b'RRRRR')

    def outcome(self, file, n, order):
        """All that the frame tells, or what it is refused with."""
        try:
            frame = find_frame(file, n, order)
        except Refused as refused:
            return refused.number
        return told(frame), frame.heads

    def test_every_other_byte_is_changed(self):
        chance, refusals = random.Random(14), collections.Counter()
        for made in BOTH:
            past = made.number(9, 2) + b'\x7f' * 4
            faulty = [made.frame(9, data) for data in BLOCK_FAULTS.values()]
            for _ in range(60):
                pieces = chance.choices(frames(made) * 3 + [*faulty, past], k=chance.randrange(1, 9))
                file = made.trace(LINES, *pieces) + chance.choice(self.TAILS)
                for n in range(len(pieces) + 1):
                    found = self.outcome(file, n, made.order)
                    # At a size past the file the walk ends.
                    last = pieces.index(past) if past in pieces[:n + 1] else n
                    other = otherwise(chance, file, read(pieces, last))
                    self.assertEqual(self.outcome(other, n, made.order), found)
                    refusals[found if isinstance(found, int) else 0] += 1
        # The found ones among them, as 0, and every refusal that can be met.
        self.assertEqual(refusals.keys(), {0, 6, 7, 8, 9, 12, 18, 24})

    # A map whose file was cut behind its first page: who reads there is killed. The argument is what reads it.
    CUT = '''
import mmap, resource, sys, tempfile
from build import LITTLE
import repository
from tufakpeni import Trace, find_frame

resource.setrlimit(resource.RLIMIT_CORE, (0, 0))
frame = LITTLE.frame(1, LITTLE.registers(b'ab'), LITTLE.memory(16, b'xyz'))
with tempfile.TemporaryFile() as file:
    file.write(LITTLE.trace(['R 2'], *[frame] * mmap.PAGESIZE))
    file.flush()
    mapped = mmap.mmap(file.fileno(), 0, access=mmap.ACCESS_READ)
    file.truncate(mmap.PAGESIZE)
    found = eval(sys.argv[1])
    print(bytes(found.registers), bytes(found.memory(17)), len(found.blocks), found.description.register_size)
'''

    def test_the_tail_is_not_touched(self):
        for words, printed, status in (('find_frame(mapped, 0)', "b'ab' b'yz' 2 2\n", 0),
                                       ('find_frame(mapped, 50)', "b'ab' b'yz' 2 2\n", 0),
                                       ('find_frame(mapped, mmap.PAGESIZE - 1)', '', -signal.SIGBUS),
                                       ('Trace(mapped).frame(0)', '', -signal.SIGBUS)):
            ended = subprocess.run([sys.executable, '-c', self.CUT, words], cwd=ROOT / 'tests/python',
                                   capture_output=True, text=True)
            self.assertEqual((ended.stdout, ended.returncode), (printed, status), ended.stderr)

    def test_few_questions(self):
        """Two are asked for a frame, and the second of the opening and that frame only."""
        file = LITTLE.trace(LINES, *frames(LITTLE) * 20)
        with questions() as asked:
            frame = find_frame(file, 66)
        self.assertEqual([(name, length) for name, (_, _, length, *_) in asked],
                         [('tfk_frame_place', len(file)), ('tfk_frame_table', len(OPENING) + 6 + frame.size)])


if __name__ == '__main__':
    unittest.main()
