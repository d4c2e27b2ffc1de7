"""No call of the header breaks the rules by which RISC-V passes everything as x86-64 does; and each breach would be noticed."""
import re
import unittest

import header
import layout
from convention import Sizes, broken

SIX = 'uint64_t a, uint64_t b, uint64_t c, uint64_t d, uint64_t e, uint64_t f'
BREACHES = {
    'a byte': 'uint8_t tfk_more(uint64_t a);',
    'a number of 16 bits': 'uint16_t tfk_more(uint64_t a);',
    'a number of 32 bits': 'uint32_t tfk_more(uint64_t a);',
    'an int': 'int tfk_more(uint64_t a);',
    'a floating answer': 'double tfk_more(uint64_t a);',
    'a floating argument': 'uint64_t tfk_more(float a);',
    'floating numbers lent': 'uint64_t tfk_more(const double *a);',
    'a floating field': 'typedef struct { double value; } tfk_more;',
    'floating fields': 'typedef struct { uint8_t refusal; float values[4]; } tfk_more;',
    'a field aligned to 16': 'typedef struct { __int128 value; } tfk_more;',
    'a bool given': 'uint64_t tfk_more(bool a);',
    'a struct of 16 bytes that needs a seventh register': 'uint64_t tfk_more(uint64_t a, uint64_t b, uint64_t c, uint64_t d, uint64_t e, tfk_count f);',
    'a struct of 2 bytes behind six words': f'uint64_t tfk_more({SIX}, tfk_settings g);',
    'a struct that the answer\'s place pushes out': 'tfk_place tfk_more(uint64_t a, uint64_t b, uint64_t c, uint64_t d, tfk_count e);',
    'a struct behind two others': 'uint64_t tfk_more(tfk_count a, tfk_count b, uint8_t *c, tfk_count d);',
}
NOT = {
    'a whole word': 'uint64_t tfk_more(uint8_t a);',
    'a bool': 'bool tfk_more(uint64_t a);',
    'a small struct': 'tfk_mark tfk_more(uint16_t a);',
    'a struct in the last registers': 'uint64_t tfk_more(uint64_t a, uint64_t b, uint64_t c, uint64_t d, tfk_count e);',
    'a long struct, which needs no register': f'uint64_t tfk_more({SIX}, tfk_selection g);',
    'words behind six words': f'uint64_t tfk_more({SIX}, uint32_t g, uint64_t h, uint64_t i);',
    'structs lent': f'uint64_t tfk_more({SIX}, tfk_count *g);',
}
# These the header's grammar does not know.
UNREAD = ['typedef struct { _Alignas(16) uint8_t a; } tfk_more;', 'long double tfk_more(uint64_t a);', 'const uint8_t *tfk_more(uint64_t a);',
          'typedef struct { uint8_t a; } __attribute__((aligned(16))) tfk_more;', '\n#define uint64_t uint32_t\n', '\n#include "more.h"\n',
          'uint32_t tfk_more(void);uint64_t tfk_more(void);', 'typedef struct { uint8_t a; } tfk_more;typedef struct { uint64_t a; } tfk_more;',
          '\n#ifdef MORE\nuint32_t tfk_more(void);\n#endif\n']


class Convention(unittest.TestCase):
    def broken(self, more):
        return broken(header.parsed(header.HEADER.read_text() + more))

    def test_the_header(self):
        self.assertEqual(broken(header.read()), [])

    def test_breaches(self):
        for name, more in BREACHES.items():
            with self.subTest(name):
                self.assertEqual(len(self.broken(more)), 1)

    def test_nothing_else_is_one(self):
        for name, more in NOT.items():
            with self.subTest(name):
                self.assertEqual(self.broken(more), [])

    def test_what_the_grammar_does_not_know(self):
        for more in UNREAD:
            with self.subTest(more), self.assertRaises(ValueError):
                self.broken(more)

    def test_the_sizes_are_the_compilers(self):
        measured = dict(re.findall(r'^struct (\w+) (\d+)$', layout.layout(), re.M))
        sizes = Sizes(header.read().structs)
        self.assertEqual({struct: str(sizes.of(struct)[0]) for struct in header.read().structs}, measured)


if __name__ == '__main__':
    unittest.main()
