"""The library's own source and both declarations of it in Rust have the header's structs and calls, field by field, and its refusals."""
import unittest

import header
from declared import CALL, declared, refusals

# Every struct that C can see and every exported call is somewhere in the crates.
LIBRARY = sorted(header.ROOT.glob('crates/*/src/**/*.rt'))
WRAPPER = 'bindings/rust/src/raw.rs'
TESTS = 'tests/rust/src/c.rs'
REFUSALS = ['crates/refusals/src/lib.rt', 'bindings/rust/src/refusal.rs', 'tests/rust/src/second/refusal.rs']


class Declared(unittest.TestCase):
    maxDiff = None

    def setUp(self):
        self.header = header.read()

    def test_the_library(self):
        self.assertEqual(declared(*LIBRARY), (self.header.structs, self.header.calls))

    def test_the_rust_tests(self):
        self.assertEqual(declared(TESTS), (self.header.structs, self.header.calls))

    def test_the_rust_wrapper(self):
        """It has no use for two of the calls: the place of a frame's registers is in the frame table, and it has settings of its own."""
        structs, calls = declared(WRAPPER)
        unused = {name: self.header.calls[name] for name in ('tfk_registers_place', 'tfk_default_settings')}
        self.assertEqual((structs, {**calls, **unused}), (self.header.structs, self.header.calls))

    def test_the_rust_wrapper_asks_before_every_call(self):
        """What is declared outside the macro, which asks for the number first, is the number's own call."""
        folder = (header.ROOT / WRAPPER).parent
        declaring = [path for path in folder.rglob('*.rs') if 'extern "C"' in path.read_text()]
        self.assertEqual(declaring, [header.ROOT / WRAPPER])
        outside, _ = declaring[0].read_text().split('\ncalls! {\n')
        self.assertEqual([name for name, *_ in CALL.findall(outside)], ['tfk_interface'])

    def test_the_refusals(self):
        """What the header numbers besides is of other kinds."""
        expected = {name: number for name, number in self.header.values.items()
                    if not name.startswith(('TFK_LINE_', 'TFK_ENDING_'))}
        for source in REFUSALS:
            with self.subTest(source):
                self.assertEqual(refusals(source), expected)


if __name__ == '__main__':
    unittest.main()
