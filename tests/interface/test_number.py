"""A library of another number is not used: C, Rust and Python end with both numbers and show nothing."""
import os
import subprocess
import sys
import tempfile
import unittest
from pathlib import Path

import header
from library import ARCHIVE

ROOT = header.ROOT
SAMPLE = 'samples/masks.tf'
# The last 32 bits are those of the right number.
OTHER = header.read().number + 2 ** 32
TWICE = """
import tufakpeni
for _ in range(2):
    try:
        tufakpeni.Selection(()).opposite()
    except tufakpeni.LibraryUnfit:
        print('unfit')
"""
NUMBERED = f'unsigned long long tfk_interface(void) {{ return {OTHER}ULL; }}\n'


def run(*words, **given):
    return subprocess.run(words, cwd=ROOT, capture_output=True, text=True, **given)


def with_(**variables):
    return {**os.environ, **variables}


class Another(unittest.TestCase):
    @classmethod
    def setUpClass(cls):
        """The archive without its number, and the same with another."""
        cls.held = tempfile.TemporaryDirectory()
        cls.addClassCleanup(cls.held.cleanup)
        cls.folder = Path(cls.held.name)
        cls.older, cls.other, number = cls.folder / 'libolder.a', cls.folder / 'libother.a', cls.folder / 'number.o'
        for words in (['objcopy', '--redefine-sym', 'tfk_interface=its_own', ARCHIVE, cls.older],
                      ['cp', cls.older, cls.other],
                      ['gcc', '-x', 'c', '-c', '-fPIC', '-', '-o', number], ['ar', 'r', cls.other, number]):
            subprocess.run(words, input=NUMBERED, text=True, check=True, stderr=subprocess.DEVNULL)

    def says(self, ended, status, *words):
        self.assertEqual((ended.stdout, ended.returncode), ('', status), ended.stderr)
        for word in words:
            self.assertIn(word, ended.stderr)

    def c_example(self, archive):
        return run('gcc', '-std=c99', '-Iinclude', 'examples/v0.c', archive, '-o', self.folder / 'v0')

    def test_c(self):
        self.assertEqual(self.c_example(self.other).returncode, 0)
        self.says(run(self.folder / 'v0', SAMPLE), 2,
                  f"the library's interface has the number {OTHER}, the header's {header.read().number}")

    def test_c_without_a_number(self):
        built = self.c_example(self.older)
        self.assertNotEqual(built.returncode, 0)
        self.assertIn('tfk_interface', built.stderr)

    def test_rust(self):
        environment = with_(TUFAKPENI_ARCHIVE=str(self.other), CARGO_TARGET_DIR=str(self.folder / 'cargo'))
        ended = run('cargo', 'run', '--quiet', '--offline', '--manifest-path', 'bindings/rust/Cargo.toml',
                    '--example', 'v0', '--', SAMPLE, env=environment)
        self.says(ended, 101, f"the library's interface has the number {OTHER}, this crate's {header.read().number}")

    def python(self, archive, *words):
        shared = self.folder / 'libtufakpeni.so'
        whole = ['-Wl,--whole-archive', archive, '-Wl,--no-whole-archive']
        subprocess.run(['gcc', '-shared', '-o', shared, *whole], check=True)
        environment = with_(TUFAKPENI_LIBRARY=str(shared), PYTHONPATH=str(ROOT / 'bindings/python'))
        return run(sys.executable, *words, env=environment)

    def test_python(self):
        self.says(self.python(self.other, '-m', 'tufakpeni', SAMPLE), 2,
                  f'libtufakpeni.so has the interface of number {OTHER}',
                  f'this module needs the interface of number {header.read().number}', 'cd crates/trace_c && rt lib')

    def test_python_without_a_number(self):
        self.says(self.python(self.older, '-m', 'tufakpeni', SAMPLE), 2,
                  'libtufakpeni.so has no number of its interface',
                  f'this module needs the interface of number {header.read().number}', 'cd crates/trace_c && rt lib')

    def test_python_again(self):
        """A caller that goes on after the error gets it again."""
        ended = self.python(self.other, '-c', TWICE)
        self.assertEqual(ended.stdout, 'unfit\nunfit\n', ended.stderr)


if __name__ == '__main__':
    unittest.main()
