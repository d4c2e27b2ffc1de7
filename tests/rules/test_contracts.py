"""Document 01's "How much a contract must say", of every public function of the library."""
import re
import unittest

from contracts import ROOT, conversions, enums, fields_of, functions_in, public_functions

FUNCTIONS = public_functions()
# The function that the programs read by: what comes from outside, and when reading fails, no equation can say.
READING = 'crates/input/src/lib.rt', 'read_full'
# An answer is a `Result` with a refusal, an `Option`, or an enum with values; an enum without, as a line's kind, is its own meaning.
VALUES = re.compile(r'[({]')
ANSWER = re.compile(r', Refusal>|\bOption<')
MEANING = re.compile(r'\b(?:\w*[mM]eaning|answer_of|answer_by \S+|held) \(?result\b')


class Contracts(unittest.TestCase):
    def each(self, holds, what):
        wrong = [f'{f.place}: {f.name}: {what}' for f in FUNCTIONS if not holds(f)]
        self.assertEqual(wrong, [])

    def test_there_are_functions(self):
        names = {f.name for f in FUNCTIONS}
        self.assertLess({'frame_count', 'table', 'cut', 'join', 'pair_variable', 'summary', 'cpu_range', 'tfk_cut'}, names)

    def test_every_public_function_has_a_contract(self):
        self.each(lambda f: f.ensures, 'no ensures')

    def test_no_public_function_asks_for_anything(self):
        self.each(lambda f: not f.requires, 'a requires')

    def test_every_contract_gives_the_result(self):
        self.each(lambda f: f.gives_result(), 'the result is not in the ensures')

    def test_every_contract_gives_what_was_lent(self):
        self.each(lambda f: all(re.search(rf'\b{p}\.new\b', f.promised()) for p in f.lent()), 'a lent parameter is not in the ensures at exit')

    def test_every_contract_is_an_equation(self):
        def equation(clause):
            fields = fields_of(ROOT, clause.split()[0])
            return '→' not in clause and ('≡' in clause or bool(fields) and all('≡' in kind for _, kind in fields))

        self.each(lambda f: (f.place, f.name) == READING or all(map(equation, f.ensures)), 'the ensures is no equation')
        self.assertEqual([f.name for f in FUNCTIONS if f.place == READING[0]], ['room', 'read_full'])

    def test_an_answer_is_promised_by_its_meaning(self):
        enums_with_values = {name for name, cases in enums().items() if VALUES.search(cases)}
        self.assertLessEqual({'BlockKind', 'PairPlace'}, enums_with_values)
        answers = {f.name for f in FUNCTIONS if ANSWER.search(f.returned())}
        self.assertLess({'frame_count', 'block_record', 'head_at', 'summary'}, answers)
        self.each(lambda f: (f.place, f.name) == READING or not (f.name in answers or f.returned() in enums_with_values) or MEANING.search(f.promised()),
                  'the ensures has no meaning of the answer')

    def test_every_conversion_says_what_it_gives(self):
        found = list(conversions())
        self.assertGreater(len(found), 10)
        self.assertEqual([place for place, gives in found if not re.match(r'λ \S+ \S+\. .*≡', gives)], [])


class Reading(unittest.TestCase):
    """That a contract is read as it is written."""

    def one(self, text):
        return next(functions_in(text, 'lib.rt'))

    def test_clauses(self):
        f = self.one('pub fn f(a: u8, out: &mut [u8]) -> Answer\n    requires { 0 < a }\n    ensures { result ≡ g { x } }\n{\n    a\n}\n')
        self.assertEqual((f.returned(), f.lent(), f.gives_result()), ('Answer', ['out'], True))
        self.assertEqual((f.requires, f.ensures), (['0 < a'], ['result ≡ g { x }']))

    def test_clauses_with_names(self):
        f = self.one('pub fn f(a: u8) -> u8\n    requires low { 0 < a }\n    requires high { a < 9 }\n    ensures* one { b }\n    ensures two {\n        c }\n{\n    a\n}\n')
        self.assertEqual((f.returned(), f.gives_result()), ('u8', False))
        self.assertEqual((f.requires, f.ensures), (['0 < a', 'a < 9'], ['b', 'c']))

    def test_no_clauses(self):
        f = self.one('// pub fn g() {}\npub extern "C" fn f() -> Answer {\n    Answer { x: 1 }\n}\n')
        self.assertEqual((f.name, f.returned(), f.requires, f.ensures), ('f', 'Answer', [], []))

    def test_what_is_before_the_word_fn(self):
        for words in ('pub fn', 'pub const fn', 'pub unsafe extern "C" fn'):
            with self.subTest(words):
                f = self.one(f'{words} f() {{\n}}\n')
                self.assertEqual((f.name, f.public), ('f', True))


if __name__ == '__main__':
    unittest.main()
