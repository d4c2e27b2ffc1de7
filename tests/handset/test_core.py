"""The library on an emulated core that has no M, A, F, D and C: answers as on x86-64, calls by their registers, the example without an operating system,
and the instructions that a frame takes. Every C test runs there too, by tests/handset/c."""
import signal
import subprocess
import tempfile
import unittest
from pathlib import Path

import instructions
from core import ARCHIVES, EMULATE, HERE, NATIVE, ROOT, built, c_library, output_of

C = ROOT / 'tests/c'
CHECKED = [C / name for name in ('check.c', 'settings.c', 'answers.c')]
GCC = 'riscv64-linux-gnu-gcc'
BARE = f'{GCC} -march=rv64i -mabi=lp64 -mcmodel=medany -O2 -ffreestanding -nostdlib -static'.split()
# Each with the extension that it is of. (Of A the emulator runs the 64-bit forms all the same; that the library has none is read from its code.)
LACKED = {'div a0, a0, a1': 'm', 'remu a0, a0, a1': 'm', 'amoadd.w a0, a1, (sp)': 'a', 'fadd.s f1, f2, f3': 'f', 'fadd.d f1, f2, f3': 'd', 'c.nop': 'c'}
# Real files and samples; damaged copies of each, and made files, as tests/rust/examples/made.rs has them.
FILES = sorted(ROOT.glob('samples/*.tf')) + sorted(ROOT.glob('tests/real/*/*.tf')) + sorted(ROOT.glob('tests/real/tracedat/*/*.dat'))
DAMAGED, MADE, LEAST_LINES = 4, 250, 400_000


class Core(unittest.TestCase):
    @classmethod
    def setUpClass(cls):
        held = tempfile.TemporaryDirectory()
        cls.addClassCleanup(held.cleanup)
        cls.folder = Path(held.name)
        # Buffers that end, and buffers that start, at a page that may not be touched.
        cls.ending, cls.starting = (c_library(cls.folder / name, *words) for name, *words in (['ending'], ['starting', '-DAT_FRONT=1']))

    def on_core(self, name, sources, *words, c_library=None):
        return built(self.folder, name, [HERE / 'libc/cc', *words], sources, [ARCHIVES['lp64'], c_library or self.ending])

    def status_of(self, extension, instruction):
        """How the core ends a program of one instruction."""
        program = self.folder / 'one'
        text = f'.globl _start\n_start: .option arch, +{extension}\n{instruction}\n.option arch, -{extension}\nli a0, 0\nli a7, 94\necall\n'
        subprocess.run([GCC, '-march=rv64i', '-mabi=lp64', '-nostdlib', '-static', '-x', 'assembler', '-', '-o', program], input=text, text=True, check=True)
        return subprocess.run([EMULATE, program], stderr=subprocess.DEVNULL).returncode

    def test_what_the_core_does_not_have(self):
        for instruction, extension in LACKED.items():
            with self.subTest(instruction):
                self.assertEqual(self.status_of(extension, instruction), -signal.SIGILL)
        self.assertEqual(self.status_of('m', 'mul a0, a0, a1'), 0)

    def test_calls_by_their_registers(self):
        # A function is called as one of another type: that is the test.
        program = self.on_core('registers', [*CHECKED, HERE / 'registers.c'], '-Wno-cast-function-type')
        self.assertRegex(output_of(EMULATE, program), r'^[1-9]\d* passed, 0 failed\n$')

    def test_answers_as_on_x86_64(self):
        sources = [*CHECKED[:2], *sorted((HERE / 'answers').glob('*.c'))]
        native = built(self.folder, 'native', ['gcc'], sources, [NATIVE])
        collection = self.folder / 'collection'
        made = ['cargo', 'run', '--quiet', '--offline', '--release', '--manifest-path', ROOT / 'tests/rust/Cargo.toml', '--example', 'made', '--']
        with collection.open('wb') as out:
            subprocess.run([*made, str(DAMAGED), str(MADE), *FILES], stdout=out, check=True)
        expected = output_of(native, collection).splitlines()
        print(f'the core: {len(expected)} answers about {expected[-1]}, to be as on x86-64')
        self.assertLess(LEAST_LINES, len(expected))
        for buffers in (self.ending, self.starting):
            with self.subTest(buffers.parent.name):
                answers = output_of(EMULATE, self.on_core('core', sources, c_library=buffers), collection).splitlines()
                for at, (one, other) in enumerate(zip(answers, expected)):
                    self.assertEqual(one, other, f'line {at}')
                self.assertEqual(len(answers), len(expected))

    def test_without_an_operating_system(self):
        bare = ROOT / 'examples/bare'
        program = self.folder / 'bare'
        output_of(*BARE, f'-I{ROOT / "include"}', '-T', bare / 'board.ld', *bare.glob('*.[cs]'), ARCHIVES['lp64'], '-o', program)
        self.assertEqual(output_of(EMULATE, program), (ROOT / 'examples/v0.txt').read_text())

    def test_over_a_linux_libc(self):
        """That libc is for a core that has everything."""
        v0 = built(self.folder, 'v0', [GCC, '-static'], [ROOT / 'examples/v0.c'], [ARCHIVES['lp64d']])
        self.assertEqual(output_of('qemu-riscv64', v0, ROOT / 'samples/masks.tf'), (ROOT / 'examples/v0.txt').read_text())
        fields = built(self.folder, 'fields', [GCC, '-static'], [*CHECKED, C / 'traces.c', C / 'dats.c', C / 'fields.c'], [ARCHIVES['lp64d']])
        self.assertRegex(output_of('qemu-riscv64', fields), r'^[1-9]\d* passed, 0 failed\n$')

    def test_instructions_of_a_frame(self):
        found = instructions.per_frame(self.on_core('count', [*CHECKED[:2], HERE / 'count.c']))
        print('the core: instructions a frame of 796 bytes:', ', '.join(f'{name} {number:g}' for name, number in found.items()))
        self.assertEqual(set(found), set(instructions.stated()))
        self.assertEqual({name: number for name, number in found.items() if not 0 < number <= instructions.stated()[name]}, {})


if __name__ == '__main__':
    unittest.main()
