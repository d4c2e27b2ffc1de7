"""No instruction of the library divides or takes a remainder; and the test would notice one of any kind that compilers make."""
import subprocess
import unittest

from division import ARCHIVE, divisions, instructions, told_by
from made import Made

WHOLE = [f'{sign}{size}_t' for sign in ('int', 'uint') for size in (8, 16, 32, 64)]
DIVIDE = {
    **{f'{kind} {sign}': f'{kind} f({kind} a, {kind} b) {{ return a {sign} b; }}' for kind in WHOLE for sign in '/%'},
    '128 bits': 'unsigned __int128 f(unsigned __int128 a, unsigned __int128 b) { return a / b; }',
    'float': 'float f(float a, float b) { return a / b; }',
    'double': 'double f(double a, double b) { return a / b; }',
    'long double': 'long double f(long double a, long double b) { return a / b; }',
    'the remainder of a float': 'void f(void) { __asm__ volatile ("fprem"); }',
    'vectors': 'typedef float v __attribute__((vector_size(16))); v f(v a, v b) { return a / b; }',
    'wide vectors': 'typedef double v __attribute__((vector_size(32))); '
                    '__attribute__((target("avx"))) void f(v *a, const v *b) { *a /= *b; }',
    'a reciprocal': 'typedef float v __attribute__((vector_size(16))); v f(v a) { return __builtin_ia32_rcpps(a); }',
    'what may be missing': '__attribute__((weak)) int other(int a); int f(int a) { return other(a) + 1; }',
    'memory copied': 'void *memcpy(void *, const void *, unsigned long); void f(char *a, char *b, unsigned long n) { memcpy(a, b, n); }',
    'behind a prefix': 'void f(void) { __asm__ volatile (".byte 0x2e, 0x48, 0xf7, 0xf1"); }',
    'what is no instruction': 'void f(void) { __asm__ volatile (".byte 0x06"); }',
    'the alignment test as it was': 'int f(uint64_t page, uint64_t offset) { return offset % page == 0; }',
}
NOT = {
    'a constant': 'uint64_t f(uint64_t a) { return a / 10 + a % 1000; }',
    'the low bits': 'int f(uint64_t page, uint64_t offset) { return (offset & (page - 1)) == 0; }',
    'a name': 'int division(int a); int remainder_of(int a) { return division(a); } int division(int a) { return a + 1; }',
    'memory filled': 'void *memset(void *, int, unsigned long); void f(char *a, unsigned long n) { memset(a, 0, n); }',
    'data': 'const unsigned char div[] = {0xf7, 0xf1}; int f(int a) { return div[a & 1]; }',
}


class Division(Made):
    def compiled(self, source):
        return self.archive(['gcc', '-O2', '-w', '-c', '-x', 'c', '-'], f'#include <stdint.h>\n{source}')

    def test_every_division_is_noticed(self):
        for name, source in DIVIDE.items():
            with self.subTest(name):
                self.assertEqual(len(divisions(self.compiled(source))), 1)

    def test_nothing_else_is(self):
        for name, source in NOT.items():
            with self.subTest(name):
                self.assertEqual(divisions(self.compiled(source)), [])

    def test_an_archive_that_cannot_be_read(self):
        text = self.folder / 'text'
        text.write_text('no archive')
        for path in (self.folder / 'absent', text):
            with self.subTest(path.name), self.assertRaises(subprocess.CalledProcessError):
                divisions(path)

    def test_an_archive_without_instructions(self):
        with self.assertRaises(ValueError):
            divisions(self.compiled('int value;'))

    def test_the_library_has_none(self):
        self.assertEqual(divisions(ARCHIVE), [])

    def test_every_function_of_the_library_is_seen(self):
        exported = {words[0] for words in map(str.split, told_by('nm', '-P', ARCHIVE)) if words[1:2] and words[1] in 'Tt'}
        self.assertLess(10, sum(name.startswith('tfk_') for name in exported))
        self.assertEqual(exported - {function for function, _ in instructions(ARCHIVE)}, set())


if __name__ == '__main__':
    unittest.main()
