"""The header has the layout that is stored for its number, and no other number has the same."""
import unittest

import header
import layout


class Layout(unittest.TestCase):
    maxDiff = None

    def test_the_header_has_the_layout_of_its_number(self):
        place = layout.stored(header.read().number)
        text = place.read_text() if place.is_file() else ''
        self.assertEqual(text.splitlines(), layout.layout().splitlines(), layout.CHANGED)

    def test_each_number_has_a_layout_of_its_own(self):
        every = layout.every_stored()
        self.assertEqual(len(set(every.values())), len(every), f'two of these are the same: {", ".join(every)}')

    def test_every_number_so_far_has_its_layout(self):
        self.assertEqual(set(layout.every_stored()), {layout.stored(n + 1).stem for n in range(header.read().number)})

    def test_what_is_not_understood_is_an_error(self):
        text = header.HEADER.read_text()
        for more in ('typedef struct tfk_more { int a; } tfk_more;', 'typedef struct { int a : 1; } tfk_more;',
                     'typedef struct { int *a; } tfk_more;', 'enum { TFK_MORE };', 'extern int tfk_more;'):
            with self.subTest(more), self.assertRaises(ValueError):
                header.parsed(text + more)


if __name__ == '__main__':
    unittest.main()
