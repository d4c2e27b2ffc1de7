"""The command and the example, compared with stored text."""
import contextlib
import io
import itertools
import mmap
import os
import subprocess
import sys
import tempfile
import unittest

from build import BARE, BIG, LIMIT, LITTLE, MARK, dat
from cases import Case, questions
from repository import EXPECTED, MODULE, ROOT
from tufakpeni import Refused, __main__ as program


def run(*words, stderr=subprocess.PIPE, **given):
    environment = {**os.environ, 'PYTHONPATH': str(MODULE), 'PYTHONUNBUFFERED': ''}
    return subprocess.run([sys.executable, *words], env=environment, cwd=ROOT, stdout=subprocess.PIPE, stderr=stderr,
                          text=True, **given)


def command(*words, **given):
    return run('-m', 'tufakpeni', *words, **given)


class Shown(Case):
    """What the tests of the command share."""

    def prints(self, text, errors, status, *words):
        ended = command(*words)
        self.assertEqual((ended.stdout, ended.stderr, ended.returncode), (text, errors, status))

    def shows(self, name, *words):
        self.prints((EXPECTED / name).read_text(), '', 0, *words)

    def made(self, data):
        file = tempfile.NamedTemporaryFile()
        self.addCleanup(file.close)
        file.write(data)
        file.flush()
        return file.name


class Command(Shown):
    def test_overview(self):
        self.shows('board.txt', 'samples/board.tf')
        self.shows('board.txt', 'samples/board.tf', '--lines', '--frames')

    def test_parts(self):
        size, rest = (EXPECTED / 'board.txt').read_text().split('\n', 1)
        lines, frames = rest.split('\nframes ')
        self.assertEqual(command('samples/board.tf', '--lines').stdout, f'{size}\n{lines}\n')
        self.assertEqual(command('samples/board.tf', '--frames').stdout, f'{size}\nframes {frames}')

    def test_blocks(self):
        self.shows('board-blocks.txt', 'samples/board.tf', '--blocks', '--variables')

    def test_the_end_mark(self):
        self.shows('marked.txt', 'samples/marked.tf', '--frames')
        for mark, said in ((MARK, 'then the end mark'), (b'', 'no end mark')):
            self.assertEqual(command(self.made(BARE + mark)).stdout,
                             f'no R line, so no register blocks\nlines 0\nframes 0, {said}\n')

    def test_base(self):
        """The register size is shown with its base, whether or not there is such a block."""
        for line, words, shown in (('R 308', (), '776 bytes: `R 308` in base 16'),
                                   ('R 308', ('--base', '16'), '776 bytes: `R 308` in base 16'),
                                   ('R 308', ('--base', '10'), '308 bytes: `R 308` in base 10'),
                                   ('R 65535', ('--base', '10'), '65535 bytes: `R 65535` in base 10'),
                                   ('R FfFf', (), '65535 bytes: `R FfFf` in base 16'),
                                   ('R 0', (), '0 bytes: `R 0` in base 16')):
            ended = command(self.made(LITTLE.trace(['tp T1', line], LITTLE.frame(1))), '--frames', *words)
            self.assertEqual(ended.stdout.splitlines()[0], 'register blocks of ' + shown, ended.stderr)

    def test_a_trace_in_decimal(self):
        """It is read with its base said, and refused without, in words that say so."""
        frame = LITTLE.frame(1, LITTLE.registers(bytes(776)), LITTLE.variable(1, 2))
        file = self.made(LITTLE.trace(['R 776'], frame))
        self.assertEqual(command(file, '--base', '10', '--blocks').stdout.splitlines(), [
            'register blocks of 776 bytes: `R 776` in base 10', 'frames 1, no end mark',
            '  frame 0: tracepoint 1, 790 bytes at 21, registers at 22', '    R at 21: 776 bytes',
            '    V at 798: variable 1 = 2'])
        self.prints('register blocks of 1910 bytes: `R 776` in base 16\nframes 0 up to the fault\n',
                    "refused 9 in frame 0, whose head stands at byte 15: a block runs past its frame's data\n"
                    'base 16 was tried for the R line; to try the other: --base 10\n', 1, file, '--blocks')
        self.prints('', "refused 9 in frame 0: a block runs past its frame's data\n"
                        'base 16 was tried for the R line; to try the other: --base 10\n', 1, file, '--frame', '0')

    def test_the_base_in_refusals(self):
        """It is named where it may be the reason: 5, 8, 9 and 24, if the other base gives the R line another size."""
        tried = 'base {} was tried for the R line; to try the other: --base {}'
        for lines, data, words, number, base in (
                (['R 9c4'], b'', ['--base', '10'], 5, tried.format(10, 16)),
                (['R 65535'], b'', [], 5, tried.format(16, 10)),
                (['R 308'], LITTLE.registers(bytes(776)), ['--base', '10'], 8, tried.format(10, 16)),
                (['R 20'], LITTLE.registers(bytes(20)), [], 9, tried.format(16, 10)),
                (['R 10'], LITTLE.registers(bytes(16)) * 2, [], 24, tried.format(16, 10)),
                (['R 0002'], LITTLE.registers(bytes(2)) * 2, [], 24, None),
                (['R 2'], LITTLE.registers(bytes(2)) * 2, ['--base', '10'], 24, None),
                (['R a'], LITTLE.registers(bytes(10)) * 2, [], 24, None),
                (['R a'], b'x', [], 8, None),
                (['R a'], LITTLE.registers(b''), [], 9, None),
                (['R x'], b'', [], 5, None),
                (['R 10', 'R 10'], b'', [], 5, None),
                (['status a', 'status b'], b'', [], 5, None),
                (['tp R x'], b'X', [], 8, None),
                (['tp R x'], b'M', [], 9, None),
                ([], LITTLE.registers(b''), [], 10, None)):
            ended = command(self.made(LITTLE.trace(lines, LITTLE.frame(1, data))), *words)
            reason, *more = ended.stderr.splitlines()
            self.assertRegex(reason, f'^refused {number}(: | in frame 0, )')
            self.assertEqual((more, ended.returncode), ([base] if base else [], 1))

    def test_a_second_block_by_the_wrong_base(self):
        """A sound file is refused with 24 where a byte `R` stands behind what the wrong base takes for its registers."""
        letters = LITTLE.registers(b'R' * 776)
        behind = LITTLE.registers(bytes(20)) + LITTLE.memory(1, b'RRRR')
        for line, data, base, wrong in (('R 308', letters, '16', '10'), ('R 20', behind, '10', '16')):
            file = self.made(LITTLE.trace([line], LITTLE.frame(1, data)))
            self.assertEqual(command(file, '--base', base).returncode, 0)
            self.assertEqual(command(file, '--base', wrong).stderr, (
                f'refused 24 in frame 0, whose head stands at byte {10 + len(line)}: a second `R` block in a frame\n'
                f'base {wrong} was tried for the R line; to try the other: --base {base}\n'))

    def test_no_such_base(self):
        for base in ('8', '0', '266', '-6', 'ten', ''):
            ended = command('samples/board.tf', '--base', base)
            self.assertEqual((ended.stdout, ended.returncode), ('', 2))
            self.assertIn('argument --base', ended.stderr)

    def test_big(self):
        file = self.made(BIG.trace(['tp \\x\t\xff'], BIG.frame(1, BIG.memory(2 ** 64 - 1, bytes(range(17))),
                                                              BIG.variable(1, 2), BIG.variable(1, -3))))
        self.shows('big.txt', file, '--order', 'big', '--lines', '--blocks', '--variables')

    def test_trace_dat(self):
        file = self.made(dat(order='big', formats=[b'f'], kallsyms=b'abc', options=[], cpus=[(4096, 5), (7, 0)],
                             rest=bytes(5000)))
        self.shows('dat.txt', file)
        self.shows('dat.txt', file, '--dat')

    def test_refusals(self):
        """What is refused ahead of a trace's frames shows nothing of it."""
        for words, text in (
                ([self.made(b'')], 'refused 3: the head differs or is cut short'),
                ([self.made(bytes(LIMIT + 2))], "refused 1: a file, or a join's result, is longer than 67,108,864 bytes"),
                ([self.made(LITTLE.trace(['tp'] * 3)[:-1])], 'refused 4: the description has no empty line'),
                ([self.made(b'\x17\x08\x44')], 'refused 14: a trace.dat field or named piece runs past the file'),
                (['samples/board.tf', '--dat'],
                 'refused 15: a trace.dat fixed string, flag, long size or page size is wrong')):
            self.prints('', text + '\n', 1, *words)

    def test_no_such_file(self):
        ended = command('samples/nothing.tf')
        self.assertEqual((ended.stdout, ended.returncode), ('', 2))
        self.assertIn('samples/nothing.tf', ended.stderr)


class OneFrame(Shown):
    """--frame N: a single frame, with the number of heads that were read for it."""

    def test_registers(self):
        self.shows('masks-frame-3.txt', 'samples/masks.tf', '--blocks', '--registers', '--variables', '--frame', '3')
        self.shows('masks-frame-2.txt', 'samples/masks.tf', '--registers', '--frame', '2')

    def test_record(self):
        self.prints('register blocks of 776 bytes: `R 308` in base 16\nframe 4 by 5 frame heads\n'
                    '  frame 4: tracepoint 3, 15 bytes at 2713, no registers\n', '', 0,
                    'samples/board.tf', '--frame', '4')

    def test_lines(self):
        lines, _, _ = (EXPECTED / 'board.txt').read_text().partition('frames ')
        frame = 'frame 0: tracepoint 1, 817 bytes at 239, registers at 240'
        self.prints(f'{lines}frame 0 by 1 frame head\n  {frame}\n', '', 0, 'samples/board.tf', '--frame', '0', '--lines')

    def test_a_trace_that_gdb_saved(self):
        self.shows('gdb-frame-2.txt', 'samples/gdb.tf', '--blocks', '--variables', '--frame', '2')

    def test_the_later_value(self):
        """A variable that was collected before and after a step."""
        self.shows('tsv-frame-0.txt', 'tests/real/gdb/tsv.tf', '--blocks', '--variables', '--frame', '0')

    def test_a_damaged_file(self):
        """A frame behind the fault is shown as it is; of the frame at fault its own blocks are told of."""
        file = 'samples/damaged.tf'
        self.shows('damaged-frame-3.txt', file, '--blocks', '--registers', '--variables', '--frame', '3')
        self.prints('', 'refused 8 in frame 2: a block letter other than R, M, V\n', 1, file, '--frame', '2')

    def test_no_such_frame(self):
        for n in ('6', '-1', str(2 ** 63), str(2 ** 64)):
            for words in ([], ['--lines']):
                ended = command('samples/board.tf', '--frame', n, *words)
                self.assertEqual((ended.stdout, ended.returncode), ('', 1))
                self.assertTrue(ended.stderr.startswith('refused 12: '))

    def test_refusals(self):
        for data, text in ((b'', 'refused 3: the head differs or is cut short'),
                           (bytes(LIMIT + 2), "refused 1: a file, or a join's result, is longer than 67,108,864 bytes"),
                           (BARE + bytes(5), 'refused 18: a bad end mark'),
                           (BARE + LITTLE.frame(1, b'R'),
                            'refused 10 in frame 0: an `R` block where no R line was given')):
            self.prints('', text + '\n', 1, self.made(data), '--frame', '0')

    def test_it_is_mapped(self):
        """A file that can be; so no more of it is read than is looked at."""
        for words, kind in ((['--frame', '0'], mmap.mmap), ([], bytes)):
            chosen = program.arguments([self.made(BARE), *words])
            with open(chosen.file, 'rb') as file:
                self.assertIsInstance(program.contents(file, chosen), kind)

    def test_a_pipe(self):
        with open(ROOT / 'samples/masks.tf', 'rb') as file:
            piped = subprocess.Popen(['cat'], stdin=file, stdout=subprocess.PIPE)
        with piped:
            ended = command('/dev/stdin', '--registers', '--frame', '2', stdin=piped.stdout)
        self.assertEqual(ended.stdout, (EXPECTED / 'masks-frame-2.txt').read_text())


class Damaged(Shown):
    """A damaged file is shown up to its fault, which is then told of."""

    def test_the_sample(self):
        self.prints((EXPECTED / 'damaged.txt').read_text(),
                    'refused 8 in frame 2, whose head stands at byte 78: a block letter other than R, M, V\n', 1,
                    'samples/damaged.tf', '--lines', '--blocks', '--registers', '--variables')

    def test_the_fault_comes_last(self):
        *_, frame, fault = command('samples/damaged.tf', stderr=subprocess.STDOUT).stdout.splitlines()
        self.assertEqual((frame[:10], fault[:9]), ('  frame 1:', 'refused 8'))

    def test_parts(self):
        fault = 'refused 8 in frame 2, whose head stands at byte 78: a block letter other than R, M, V\n'
        size = 'register blocks of 8 bytes: `R 8` in base 16\n'
        lines = 'lines 2\n  0 R at 8: R 8\n  1 tp at 12: tp T1:4d:E:0:0\n'
        frames = ('frames 2 up to the fault\n  frame 0: tracepoint 1, 22 bytes at 34, registers at 35\n'
                  '  frame 1: tracepoint 2, 16 bytes at 62, no registers\n')
        self.prints(size + lines + frames, fault, 1, 'samples/damaged.tf')
        self.prints(size + lines, fault, 1, 'samples/damaged.tf', '--lines')
        self.prints(size + frames, fault, 1, 'samples/damaged.tf', '--frames')

    # The lines of a description, and what is shown of them.
    NONE, TWO = ([], 'no R line, so no register blocks'), (['R 2'], 'register blocks of 2 bytes: `R 2` in base 16')

    def faults(self):
        """What may stand in place of a frame: the description, its bytes, and what is told of it."""
        return [(self.TWO, LITTLE.frame(1, b'x'), 8, 'stands', 'a block letter other than R, M, V'),
                (self.TWO, LITTLE.frame(1, b'Ra'), 9, 'stands', "a block runs past its frame's data"),
                (self.NONE, LITTLE.frame(1, b'Rab'), 10, 'stands', 'an `R` block where no R line was given'),
                (self.TWO, LITTLE.frame(1, b'RabRab'), 24, 'stands', 'a second `R` block in a frame'),
                (self.TWO, LITTLE.frame(1, bytes(2 ** 16))[:6], 7, 'stands', "a frame's data runs past the file"),
                (self.NONE, LITTLE.frame(0), 18, 'should start', 'a bad end mark')]

    def test_every_kind(self):
        """In the first frame, in one between, and in the last."""
        sound = [LITTLE.frame(256 + n, LITTLE.variable(1, n)) for n in range(4)]
        for (description, frame, *told), n in itertools.product(self.faults(), (0, 2, 3)):
            self.told(description, sound[:n], [frame, *sound[n + 1:]], *told)
        short = '1 to 5 bytes remain where a frame head should start'
        self.told(self.TWO, sound, [b'\1\0\0'], 6, 'should start', short)
        self.told(self.TWO, sound, [MARK, b'\0'], 18, 'should start', 'a bad end mark')

    def told(self, description, sound, rest, number, stands, reason):
        """The sound frames are shown, and then the fault."""
        lines, size = description
        front, first = LITTLE.trace(lines, *sound), len(LITTLE.trace(lines)) + 6
        frames = ''.join(f'  frame {n}: tracepoint {256 + n}, 13 bytes at {first + 19 * n}, no registers\n'
                         for n in range(len(sound)))
        self.prints(f'{size}\nframes {len(sound)} up to the fault\n{frames}',
                    f'refused {number} in frame {len(sound)}, whose head {stands} at byte {len(front)}: {reason}\n', 1,
                    self.made(front + b''.join(rest)), '--frames')

    def test_settings(self):
        """A damaged file of the other byte order, its R line in the other base."""
        words = [self.made(BIG.trace(['R 20'], BIG.frame(1, BIG.registers(bytes(20))), BIG.frame(1, b'x'),
                                     BIG.frame(2, BIG.variable(1, -3)))), '--order', 'big', '--base', '10']
        size = 'register blocks of 20 bytes: `R 20` in base 10\n'
        tried = 'base 10 was tried for the R line; to try the other: --base 16\n'
        self.prints(f'{size}frames 1 up to the fault\n  frame 0: tracepoint 1, 21 bytes at 20, registers at 21\n',
                    f'refused 8 in frame 1, whose head stands at byte 41: a block letter other than R, M, V\n{tried}', 1,
                    *words, '--frames')
        self.prints(f'{size}frame 2 by 3 frame heads\n  frame 2: tracepoint 2, 13 bytes at 54, no registers\n'
                    '    variable 1 = -3\n', '', 0, *words, '--variables', '--frame', '2')

    def test_real_files(self):
        """Three that gdb saved are at fault, and one is read in the wrong byte order."""
        for words, text in (
                (['tests/real/gdb/raw.tf'], 'refused 24 in frame 0, whose head stands at byte 17,278: '
                                            'a second `R` block in a frame'),
                (['tests/real/gdb/circular.tf'], 'refused 8 in frame 5, whose head stands at byte 29,678: '
                                                 'a block letter other than R, M, V'),
                (['tests/real/gdb/zeronum.tf'], 'refused 18 in frame 0, whose head should start at byte 16,913: '
                                                'a bad end mark'),
                (['samples/board.tf', '--order', 'big'], 'refused 7 in frame 0, whose head stands at byte 233: '
                                                         "a frame's data runs past the file")):
            ended = command(*words, '--frames')
            self.assertEqual((ended.stderr, ended.returncode), (text + '\n', 1))
            self.assertIn(f'\nframes {text.split()[4][:-1]} up to the fault\n', ended.stdout)

    def test_few_questions(self):
        """A file of many frames, at fault near its end: not one question for each of them."""
        count = 80_000
        frame = LITTLE.frame(1, LITTLE.registers(b'ab'))
        file = LITTLE.trace(['R 2'], *[frame] * count, LITTLE.frame(1, b'x'), frame)
        with contextlib.redirect_stdout(io.StringIO()) as printed, questions() as asked:
            with self.assertRaises(Refused) as caught:
                program.show(file, program.arguments(['-', '--frames']))
        self.assertEqual(str(caught.exception), 'refused 8 in frame 80000, whose head stands at byte 720,013: '
                                                'a block letter other than R, M, V')
        self.assertEqual(printed.getvalue().count('\n  frame '), count)
        # One of the whole file; four for each doubling up to the fault, and two; the table's two; one of the R line.
        self.assertLessEqual(len(asked), 1 + 4 * count.bit_length() + 2 + 2 + 1)


class Example(Case):
    def test_v0(self):
        ended = run('examples/v0.py', 'samples/masks.tf')
        self.assertEqual((ended.stdout, ended.stderr), ((ROOT / 'examples/v0.txt').read_text(), ''))

    def test_the_samples_are_what_their_scripts_make(self):
        for name in ('damaged', 'marked', 'masks'):
            words = [sys.executable, f'tests/python/make_{name}.py']
            made = subprocess.run(words, cwd=ROOT, capture_output=True).stdout
            self.assertEqual(made, (ROOT / f'samples/{name}.tf').read_bytes(), name)

    def test_another_register_size(self):
        ended = run('examples/v0.py', 'samples/two-registers.tf')
        self.assertEqual(ended.stdout, 'frame 0, tracepoint 1: a register block of 2 bytes\n')

    def test_refusal(self):
        ended = run('examples/v0.py', 'README.md')
        self.assertEqual((ended.stdout, ended.stderr, ended.returncode),
                         ('', 'refused 3: the head differs or is cut short\n', 1))


if __name__ == '__main__':
    unittest.main()
