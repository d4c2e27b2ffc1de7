"""In the source of the library's crates every division and every remainder is by a number that stands there, for whatever core it is compiled."""
import re
import unittest

from division import ROOT

# What is no code: comments, imports and clauses of contracts, bytes and texts. Braces in a clause hold no others.
BESIDES = re.compile(r"//.*|^ghost use .*|\b(?:requires|ensures)\b\*?(?: \w+)? \{(?:[^{}]|\{[^{}]*\})*\}|b?'(?:\\.|[^'\\])'|\"(?:\\.|[^\"\\])*\"", re.M)
DIVIDES = re.compile(r'[/%]=? *(\S*)|\b(?:\w*_)?(?:div|rem)(?:_\w*)?\(')
BY_NUMBER = re.compile(r'[1-9][0-9_]*\b')


def divisions(text):
    """Each division by what is no number, from its sign on."""
    for found in DIVIDES.finditer(BESIDES.sub('', text)):
        if not (found[1] and BY_NUMBER.match(found[1])):
            yield found[0]


def crates(name='trace_c'):
    """The crates of this repository that a crate is made of, itself among them."""
    lines = (line.partition('#')[0].partition(':') for line in (ROOT / 'crates.txt').read_text().splitlines())
    # The name is the first word: a static library has another behind it.
    uses = {crate.split()[0]: used.split() for crate, _, used in lines if crate.strip()}
    met, open_ = set(), [name]
    while open_:
        crate = open_.pop()
        if crate in uses and crate not in met:
            met.add(crate)
            open_ += uses[crate]
    return met


class Source(unittest.TestCase):
    def test_by_numbers_only(self):
        self.assertLess({'trace_c', 'dat_ranges', 'gdb_data', 'fields'}, crates())
        for crate in sorted(crates()):
            for path in (ROOT / 'crates' / crate / 'src').rglob('*.rt'):
                with self.subTest(path.relative_to(ROOT)):
                    self.assertEqual(list(divisions(path.read_text())), [])

    def test_the_alignment_test_as_it_was(self):
        text = (ROOT / 'crates/dat_ranges/src/lib.rt').read_text()
        wrong = text.replace('offset & (page as u64 - 1) == 0', 'offset % page as u64 == 0')
        self.assertEqual(list(divisions(wrong)), ['% page'])

    def test_others_are_noticed(self):
        for text in ('offset % page == 0', 'a / b', 'a /b', 'a %= n;', 'x / (2)', 'x / 0', 'std::num::wrapping_rem_u64(a, b)', 'checked_div(a, b)', 'x % 8 / n',
                     'fn f() -> u8\n    requires { a / b }\n    ensures low { g {x} a % b }\n{\n    a / b\n}'):
            with self.subTest(text):
                self.assertEqual(len(list(divisions(text))), 1)

    def test_nothing_else_is(self):
        for text in ('x / 256 % 256', 'x %= 10;', "b'%' | b'/' => 1", '// a / b', 'let a = "a / b";', 'f(remaining)', 'removed(x)', 'x % 4_294_967_296',
                     'ghost use Prim.Native.Nat.{_/_, _%_};', 'ensures { result ≡ a / b }', 'requires low { (a % b ≡ 0) × Has {b} }', 'ensures* {\n    a / b\n}'):
            with self.subTest(text):
                self.assertEqual(list(divisions(text)), [])


if __name__ == '__main__':
    unittest.main()
