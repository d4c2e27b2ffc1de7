"""What counts as a declaration in each language."""
import tempfile
import unittest
from pathlib import Path

from declared import declared_in

ANTT = '''-- word : of a comment
use Some.Module.{used}
pub data Kind : Type 0 where
  case : ℕ → Kind  -- note : of a case
pub record Held (b : List ℕ) : Type 0 where
  pub is-part : b ≡ b
abbrev pub value : ℕ → ℕ
value n = n
module _ (s : Settings) where
  unfoldable pub read : ℕ
  pub law : let x = 1 in x ≡ x
'''
RATTLE = '''// fn word
use gdb_format::Format;
pub const LIMIT: usize = 1;
pub struct Record {
    pub field: usize,
}
pub(crate) enum Kind {
    Case,
}
#[unsafe(no_mangle)]
pub extern "C" fn tfk_call(a: u8) -> u8
    ensures { result ≡ a }
{
    helper(a) // fn word
}
fn helper(a: u8) -> u8 {
    a
}
'''


class Declared(unittest.TestCase):
    def names(self, name, text):
        with tempfile.TemporaryDirectory() as folder:
            path = Path(folder) / name
            path.write_text(text)
            return declared_in(path)

    def test_antt(self):
        self.assertEqual(self.names('A.antt', ANTT), {'Kind', 'case', 'Held', 'is-part', 'value', 'read', 'law'})

    def test_rattle(self):
        self.assertEqual(self.names('lib.rt', RATTLE), {'LIMIT', 'Record', 'Kind', 'tfk_call', 'helper'})

    def test_rust(self):
        self.assertEqual(self.names('a.rs', '/// fn word\npub const fn f() {}\n    fn g() {}\nmod m;\n'), {'f', 'g', 'm'})

    def test_python(self):
        self.assertEqual(self.names('a.py', '# def word\nclass C:\n    def f(self):\n        pass\nLIMIT = 1\n'), {'C', 'f', 'LIMIT'})

    def test_c(self):
        text = '/* int word(void) */\nstatic void f(int a)\n{\n    g(a);\n}\n#define LIMIT 1\n'
        self.assertEqual(self.names('a.c', text), {'f', 'LIMIT'})

    def test_shell(self):
        self.assertEqual(self.names('run', '#!/bin/sh\n# word() is none\ntry() {\n    f x\n}\n'), {'try'})

    def test_neither(self):
        self.assertIsNone(self.names('a.md', 'def word\n'))
        self.assertIsNone(self.names('stdin', '# def word\n'))


if __name__ == '__main__':
    unittest.main()
