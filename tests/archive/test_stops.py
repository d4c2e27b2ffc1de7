"""No instruction of the library stops the program: what would stand behind a fact that the proof excludes. (The module that the library for RISC-V is made of
may have such places, `@llvm.trap`; none is left in the archives. Of RISC-V's, riscv.py knows no such instruction.)"""
import re
import unittest

from division import ARCHIVE, instructions
from made import Made

STOPS = re.compile(r'^(?:ud[012]|int1|int3|into?|hlt)\b')
STOP = {
    'a trap': 'void f(int a) { if (a) __builtin_trap(); }',
    'a place that is not reached': 'int f(int a) { __asm__ volatile ("ud2"); return a; }',
    'a breakpoint': 'void f(void) { __asm__ volatile ("int3"); }',
    'the end': 'void f(void) { __asm__ volatile ("hlt"); }',
}


def stops(archive):
    return [f'{function}: {text}' for function, text in instructions(archive) if STOPS.search(text)]


class Stops(Made):
    def compiled(self, source):
        return self.archive(['gcc', '-O2', '-w', '-c', '-x', 'c', '-'], source)

    def test_every_stop_is_noticed(self):
        for name, source in STOP.items():
            with self.subTest(name):
                self.assertEqual(len(stops(self.compiled(source))), 1)

    def test_the_library_has_none(self):
        self.assertNotEqual(list(instructions(ARCHIVE)), [])
        self.assertEqual(stops(ARCHIVE), [])


if __name__ == '__main__':
    unittest.main()
