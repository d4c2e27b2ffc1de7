"""The C test of the fields tells any two fields of a struct apart: with a header that exchanges them it fails."""
import itertools
import os
import re
import subprocess
import tempfile
import unittest
from concurrent.futures import ThreadPoolExecutor
from pathlib import Path

import header
from library import ARCHIVE

TESTS = header.ROOT / 'tests/c'
# What depends on the header's structs, as one source, and what does not.
DEPENDENT = ''.join(f'#include "{name}.c"\n' for name in ('fields', 'settings', 'answers', 'dats'))
OTHERS = [TESTS / f'{name}.c' for name in ('traces', 'check')]
SECONDS = 60


def exchanged(text, struct, one, other):
    """The header's text with two fields of a struct exchanged."""
    whole = re.search(r'typedef struct \{[^}]*\} ' + struct + ';', text)[0]
    first, second = (re.search(rf'\w+ {field}(\[\d+\])?;', whole)[0] for field in (one, other))
    return text.replace(whole, whole.replace(first, '@').replace(second, first).replace('@', second))


class Exchanged(unittest.TestCase):
    def setUp(self):
        held = tempfile.TemporaryDirectory()
        self.addCleanup(held.cleanup)
        self.folder = Path(held.name)
        self.text = header.HEADER.read_text()
        subprocess.run(['gcc', '-c', f'-I{header.HEADER.parent}', *OTHERS], cwd=self.folder, check=True)
        self.objects = list(self.folder.glob('*.o'))

    def passes(self, name, text):
        """Whether the test of the fields passes with this header."""
        folder = self.folder / name
        folder.mkdir()
        (folder / header.HEADER.name).write_text(text)
        program = folder / 'fields'
        words = ['gcc', f'-I{folder}', f'-I{TESTS}', '-x', 'c', '-', '-x', 'none', *self.objects, ARCHIVE]
        subprocess.run([*words, '-o', program], input=DEPENDENT, text=True, check=True)
        return subprocess.run([program], stdout=subprocess.DEVNULL, timeout=SECONDS).returncode == 0

    def test_as_it_is(self):
        self.assertTrue(self.passes('same', self.text))

    def test_any_two_fields_exchanged(self):
        pairs = [(struct, *names) for struct, fields in header.read().structs.items()
                 for names in itertools.combinations(dict(fields), 2)]
        with ThreadPoolExecutor(os.cpu_count()) as pool:
            passed = pool.map(lambda pair: self.passes('-'.join(pair), exchanged(self.text, *pair)), pairs)
        self.assertEqual([pair for pair, unseen in zip(pairs, passed) if unseen], [])


if __name__ == '__main__':
    unittest.main()
