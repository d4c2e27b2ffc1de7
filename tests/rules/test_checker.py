"""That the check can fail: it is run on spoiled copies of docs/RULES.md, in a folder that is else the repository."""
import re
import shutil
import tempfile
import unittest
from pathlib import Path

from declared import LANGUAGES, declared_in, found
from papers import LANDED
from rules import OPEN, READ, ROOT, RULES, Rules, citations, faults

# A sentence that is quoted as a whole.
WHOLE = 'Size 0 is allowed.'

# A request that has landed.
REQUEST = 'C-11. Traces the debugger saved are refused.'


class Spoiled(unittest.TestCase):
    def setUp(self):
        folder = tempfile.TemporaryDirectory()
        self.addCleanup(folder.cleanup)
        self.root = Path(folder.name)
        for path in ROOT.iterdir():
            if path.name not in ('docs', '.git', 'target'):
                (self.root / path.name).symlink_to(path)
        shutil.copytree(ROOT / 'docs', self.root / 'docs')
        self.lines = (ROOT / RULES).read_text().splitlines()
        self.rules = Rules((ROOT / RULES).read_text())
        self.quotes = [entry for entry in self.rules.papers['01-scope.md'] if not entry.heading]

    def told(self, landed=LANDED):
        (self.root / RULES).write_text('\n'.join(self.lines) + '\n')
        return faults(self.root, landed)

    def one(self, words, landed=LANDED):
        """There is a fault, and the first has these words."""
        told = self.told(landed)
        self.assertTrue(told)
        self.assertIn(words, told[0])

    def change(self, line, old, new):
        self.assertIn(old, self.lines[line - 1])
        self.lines[line - 1] = self.lines[line - 1].replace(old, new, 1)

    def entry(self, text):
        return next(entry for entry in self.quotes if entry.text == text)

    def hold(self, line):
        """One line in place of all that holds a sentence; the line's number."""
        block = self.block(self.entry(WHOLE))
        self.lines[block.start + 1:block.stop] = [line]
        return block.start + 2

    def block(self, entry):
        """The lines of an entry, from its quote to the empty line behind it."""
        return slice(entry.line - 1, self.lines.index('', entry.line))

    def citation(self, ends=''):
        """A holder's line that cites a name in a file with this ending: the line's number, the name and the path."""
        for entry in self.quotes:
            for holder in entry.holders:
                for name, path in citations(self.lines[holder.line - 1]):
                    if name and path and path.endswith(ends):
                        return holder.line, name, path
        self.fail(f'nothing in a file {ends} is cited')

    def test_nothing_spoiled(self):
        self.assertEqual(self.told(), [])

    # ---- the sentences

    def test_a_missing_sentence(self):
        entry = self.entry(WHOLE)
        del self.lines[self.block(entry)]
        self.one(f'is to stand: {entry.text}')
        self.assertEqual(len(self.told()), 1)

    def test_a_missing_part(self):
        entry = self.entry('long size 4 or 8;')
        del self.lines[self.block(entry)]
        self.one('is to stand: In order: 17 08 44; `tracing`;')
        self.assertEqual(len(self.told()), 1)

    def test_a_changed_word(self):
        entry = self.entry(WHOLE)
        self.change(entry.line, entry.text.split()[1], 'another')
        self.one(f'is to stand: {entry.text}')

    def test_a_changed_word_in_the_last_part(self):
        entry = next(e for e in self.quotes if e.text == 'and no two overlap.')
        self.change(entry.line, 'no two', 'two')
        self.one('offset plus size (as whole numbers) is not past the file\'s end, and no two overlap.')

    def test_a_sentence_out_of_order(self):
        first, second = self.entry(WHOLE), self.entry('Blocks fill the data exactly.')
        moved = self.lines[self.block(first)]
        del self.lines[self.block(first)]
        at = self.lines.index('> ' + second.text)
        end = self.lines.index('', at)
        self.lines[end:end] = [''] + moved
        self.one(f'is to stand: {first.text}')

    def test_a_sentence_twice(self):
        entry = self.entry(WHOLE)
        self.lines[entry.line - 1:entry.line - 1] = self.lines[self.block(entry)] + ['']
        self.one('is to stand')

    def test_a_sentence_more(self):
        at = self.lines.index('## 02-change-requests.md')
        self.lines[at:at] = ['> This is no rule.', '- context: at all', '']
        self.one('this is no further sentence of 01-scope.md: This is no rule.')

    def test_a_missing_heading(self):
        self.lines.remove('### Cut and join')
        self.one('the heading of 01-scope.md is to stand: Cut and join')

    def test_a_sentence_that_still_waits(self):
        line = self.hold('- context: comes with C-14')
        self.assertIn(f'{RULES}:{line}: C-14 has landed', self.told(landed=LANDED + ('C-14',)))

    def test_a_landed_request_that_is_missing(self):
        at = self.lines.index(f'### {REQUEST}')
        end = next(k for k in range(at + 1, len(self.lines)) if self.lines[k].startswith('### '))
        del self.lines[at:end]
        self.one(f'the heading of 02-change-requests.md is to stand: {REQUEST}')

    def test_a_request_that_has_not_landed(self):
        self.one(f'this is no further sentence of 02-change-requests.md: {REQUEST}', landed=())

    def test_a_changed_paper(self):
        paper = self.root / 'docs/papers/01-scope.md'
        paper.write_text(paper.read_text().replace('Size 0 is allowed.', 'Size 0 is not allowed.'))
        self.one('is to stand: Size 0 is not allowed.')

    # ---- what holds them

    def test_a_name_that_is_gone(self):
        line, name, path = self.citation('.antt')
        self.change(line, f'`{name}`', '`gone-for-good`')
        self.one(f'{RULES}:{line}: `gone-for-good` is not declared in {path}; it is declared nowhere')

    def test_a_name_that_moved(self):
        line, name, path = self.citation('/Trace.antt')
        self.change(line, f'`{name}`', '`cut_of`')
        self.one(f'{RULES}:{line}: `cut_of` is not declared in {path}; it is declared in crates/')

    def test_a_function_that_is_gone(self):
        line, name, path = self.citation('.rt')
        self.change(line, f'`{name}`', '`gone_for_good`')
        self.one(f'`gone_for_good` is not declared in {path}')

    def test_a_test_that_is_gone(self):
        line, name, path = self.citation('.rs')
        self.change(line, f'`{name}`', '`gone_for_good`')
        self.one(f'`gone_for_good` is not declared in {path}')

    def test_a_file_that_is_gone(self):
        line, _, path = self.citation('.antt')
        self.change(line, f'`{path}`', '`gone/specs/Gone.antt`')
        self.one(f'{RULES}:{line}: there is no file gone/specs/Gone.antt')

    def test_a_file_that_moved(self):
        line, _, path = self.citation('/Trace.antt')
        self.change(line, f'`{path}`', '`gone/specs/Trace.antt`')
        self.one('there is no file gone/specs/Trace.antt; there is crates/')

    def test_a_name_in_a_comment_only(self):
        for ends in ('.antt', '.rt'):
            with self.subTest(ends):
                line, name, path = self.citation(ends)
                comments = LANGUAGES[ends[1:]][0].findall(found(ROOT, path).read_text())
                words = {w for comment in comments for w in re.findall(r'\b[a-z]{4,}\b', comment)}
                word = sorted(words - declared_in(found(ROOT, path)))[0]
                self.setUp()
                self.change(line, f'`{name}`', f'`{word}`')
                self.one(f'`{word}` is not declared in {path}')

    def test_a_name_without_a_file(self):
        self.hold('- proved: theorem `exactness`')
        self.one('`exactness` has no file behind it')

    def test_a_name_in_a_file_without_declarations(self):
        self.hold('- form: `exactness` in `docs/DECISIONS.md`')
        self.one('`exactness` is not declared in docs/DECISIONS.md')

    def test_a_function_without_a_contract(self):
        self.hold('- proved: contract `main` in `frame_list/src/main.rt`')
        self.one('`main` in frame_list/src/main.rt has no contract')

    def test_a_run_of_what_does_not_run(self):
        self.hold('- run: `cut` in `gdb_cut/src/lib.rt`')
        self.one('gdb_cut/src/lib.rt is nothing that the gate runs')

    def test_a_case_that_is_gone(self):
        self.hold('- run: "no such case" in `tests/listing/run`')
        self.one('"no such case" does not stand in tests/listing/run')

    def test_a_form_in_a_comment_only(self):
        self.hold('- form: "Joining GDB traces into an output" in `gdb_join/src/lib.rt`')
        self.one('"Joining GDB traces into an output" does not stand in gdb_join/src/lib.rt')

    def test_a_word_that_names_nothing(self):
        self.hold('- proved: of course')
        self.one('`proved` names nothing')

    def test_an_unknown_word(self):
        line = self.hold('- believed: `cut` in `gdb_cut/specs/Cut.antt`')
        self.assertIn(f'{RULES}:{line}: a line `- WORD: ...` under a quote is expected', '\n'.join(self.told()))

    def test_a_sentence_that_nothing_is_said_of(self):
        entry = self.entry(WHOLE)
        block = self.block(entry)
        del self.lines[block.start + 1:block.stop]
        self.one(f'nothing is said of: {entry.text}')

    # ---- the lists at the top

    def test_an_open_sentence_that_is_not_listed(self):
        entry = self.entry(WHOLE)
        self.lines.insert(entry.line, '- open: nothing is there')
        self.one(f'this is not listed under "{OPEN}": {entry.text}')

    def test_a_listed_sentence_that_is_not_open(self):
        self.lines.insert(self.lines.index(f'## {OPEN}') + 1, '- "Size 0 is allowed."')
        self.one(f'this is listed under "{OPEN}"')

    def test_a_sentence_for_readers_that_is_not_listed(self):
        self.hold('- read: by eye')
        self.one(f'this is not listed under "{READ}": {WHOLE}')


if __name__ == '__main__':
    unittest.main()
