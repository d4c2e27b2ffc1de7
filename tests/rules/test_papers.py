"""The papers are as the project was given them, and are taken apart into sentences by the stated rule."""
import hashlib
import unittest

from papers import PAPERS, Heading, Sentence, demands, requests, units_of

GIVEN = {
    '00-mission.md': '8551eafa26a16720313f8ac2cf9009875f1d0dd28b275a573a17dae473f256b8',
    '01-scope.md': '1e7a5693bb39f0ed30a60f117c580472a269a4aacc4cc94a209d36476e22a0bf',
    '02-change-requests.md': 'f2512706d66cd6bacc4203bb76bc0b3c28ba382bf1b8f1dfbc062dd0bf4e7003',
}


def units(text):
    return list(units_of(text))


class Papers(unittest.TestCase):
    def test_they_are_unchanged(self):
        for name, given in GIVEN.items():
            self.assertEqual(hashlib.sha256((PAPERS / name).read_bytes()).hexdigest(), given, name)


class Sentences(unittest.TestCase):
    def test_full_stops(self):
        self.assertEqual(units('One. Two, 1.2 GHz and `.ci/run`. Three'), ['One.', 'Two, 1.2 GHz and `.ci/run`.', 'Three'])

    def test_two_stops_end_nothing(self):
        self.assertEqual(units('Taken by let .. else; keep 1..1 too.'), ['Taken by let .. else; keep 1..1 too.'])

    def test_items_and_quotes(self):
        self.assertEqual(units('- One. Two.\n> 1. Three.\n> Four'), ['One.', 'Two.', 'Three.', 'Four'])

    def test_headings(self):
        found = units('## A part\nOne.')
        self.assertEqual(found, ['A part', 'One.'])
        self.assertEqual([type(unit) for unit in found], [Heading, Sentence])

    def test_rows_without_the_head(self):
        self.assertEqual(units('| No. | When |\n|---|---|\n| 1 | a. b |\n| 2 | c |\n\n| A | B |\n|---|---|\n| 3 | d |'),
                         ['| 1 | a. b |', '| 2 | c |', '| 3 | d |'])

    def test_code(self):
        self.assertEqual(units('It prints:\n\n```\nframes 1\n1 19 3\n```\n\nDone.'), ['It prints:', 'frames 1', '1 19 3', 'Done.'])

    def test_demands(self):
        self.assertEqual(demands('> Before.\n> 1. One. Two.\n> 2. Three.\n> After.'), ['One.', 'Two.', 'Three.'])

    def test_requests(self):
        text = '**C-11. A name.** One. Two.\n\n**C-12. Another.** Three.\n'
        self.assertEqual(list(requests(text, ())), [])
        self.assertEqual(list(requests(text, ('C-12',))), ['C-12. Another.', 'Three.'])


if __name__ == '__main__':
    unittest.main()
