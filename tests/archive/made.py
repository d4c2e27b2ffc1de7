"""Archives of one file, for tests of what is read from an archive."""
import subprocess
import tempfile
import unittest
from pathlib import Path


class Made(unittest.TestCase):
    def setUp(self):
        held = tempfile.TemporaryDirectory()
        self.addCleanup(held.cleanup)
        self.folder = Path(held.name)

    def archive(self, words, source):
        """What these words of a compiler make of a source."""
        part, archive = self.folder / 'part.o', self.folder / 'libpart.a'
        archive.unlink(missing_ok=True)
        subprocess.run([*words, '-o', part], input=f'{source}\n', text=True, check=True)
        subprocess.run(['ar', 'rc', archive, part], check=True)
        return archive

    def assembled(self, words, source):
        """The same of an exported function, its lines parted by semicolons."""
        lines = source.replace('; ', '\n')
        return self.archive(words, f'.section .text.tfk_f, "ax"\n.globl tfk_f\n{lines}')


class KnownStacks:
    """Tests of a measure of stacks, `deepest`: sources that `assemble` takes, each with its depth (`known`), and sources whose depth cannot be told."""

    def test_known_stacks(self):
        for name, (source, bytes_) in self.known.items():
            with self.subTest(name):
                self.assertEqual(self.deepest(self.assembled(self.assemble, source)), {'tfk_f': bytes_})

    def test_what_cannot_be_told(self):
        for name, source in self.unknown.items():
            with self.subTest(name), self.assertRaises(ValueError):
                self.deepest(self.assembled(self.assemble, source))
