"""Each declaration of a frame's record and part is held to the layout: with a field forgotten in one of them, a test of that language fails."""
import itertools
import os
import re
import shutil
import subprocess
import sys
import tempfile
import unittest
from pathlib import Path

import header

# What the tests of the declarations read.
NEEDED = ('include', 'bindings', 'crates', 'tests/interface', 'tests/rust/src', 'tests/python')
LEFT_OUT = shutil.ignore_patterns('specs', 'proofs', 'out', 'target', 'expected', '__pycache__')

# How a struct stands in each language, and how a field stands in it.
C = r'typedef struct \{{[^}}]*\}} {};', r'^    \w+ {};\n'
RUST = r'\bstruct {} \{{[^}}]*\}}', r'^    (?:pub )?{}: \w+,\n'
MODULE = r'^{} = struct\([^)]*\)', r',\s+{}=c_\w+'

LAYOUT = 'tests/interface', 'test_layout'
DECLARED = 'tests/interface', 'test_declared'
PYTHON = 'tests/python', 'test_library.Header'

# Of each struct the fields to be forgotten, its name in C, the file of the library that has it, and its names there, in Rust and in Python.
STRUCTS = [
    (('has_registers', 'registers_place'),
     'tfk_frame', 'crates/gdb_table/src/lib.rt', 'FrameRecord', 'Frame', 'FrameRecord'),
    (('refusal', 'place', 'length', 'heads'),
     'tfk_frame_part', 'crates/gdb_flat/src/questions.rt', 'FramePart', 'FramePart', 'FramePart'),
]


def declarations(in_c, library, in_library, in_rust, in_python):
    """Each file that declares a struct, the struct's name and form there, and the tests that hold the file."""
    yield 'include/tufakpeni.h', in_c, C, LAYOUT
    yield 'include/tufakpeni.h', in_c, C, PYTHON
    yield library, in_library, RUST, DECLARED
    yield 'bindings/rust/src/raw.rs', in_rust, RUST, DECLARED
    yield 'tests/rust/src/c.rs', in_rust, RUST, DECLARED
    yield 'bindings/python/tufakpeni/_library.py', in_python, MODULE, PYTHON


def without(text, struct, field, forms):
    """A file's text without one field of a struct that it declares."""
    of_struct, of_field = forms
    (declared,) = re.findall(of_struct.format(struct), text, re.M)
    (member,) = re.findall(of_field.format(field), declared, re.M)
    return text.replace(declared, declared.replace(member, ''))


class Forgotten(unittest.TestCase):
    def setUp(self):
        held = tempfile.TemporaryDirectory()
        self.addCleanup(held.cleanup)
        self.root = Path(held.name)
        for name in NEEDED:
            shutil.copytree(header.ROOT / name, self.root / name, ignore=LEFT_OUT)

    def passes(self, held_by):
        folder, tests = held_by
        environment = {**os.environ, 'PYTHONDONTWRITEBYTECODE': '1', 'PYTHONPATH': str(self.root / 'bindings/python')}
        words = [sys.executable, '-m', 'unittest', tests]
        ended = subprocess.run(words, cwd=self.root / folder, env=environment, capture_output=True, text=True)
        self.assertRegex(ended.stderr, r'\nRan [1-9]\d* tests? in ', 'the tests did not run')
        return ended.returncode == 0

    def test_none_forgotten(self):
        for held_by in (LAYOUT, DECLARED, PYTHON):
            with self.subTest(held_by):
                self.assertTrue(self.passes(held_by))

    def test_one_forgotten(self):
        for fields, *names in STRUCTS:
            for declaration, field in itertools.product(declarations(*names), fields):
                with self.subTest(declaration, field=field):
                    self.forget(*declaration, field)

    def forget(self, name, struct, forms, held_by, field):
        """The tests that hold a file fail with a field forgotten in it."""
        place = self.root / name
        text = place.read_text()
        place.write_text(without(text, struct, field, forms))
        try:
            self.assertFalse(self.passes(held_by))
        finally:
            place.write_text(text)


if __name__ == '__main__':
    unittest.main()
