"""docs/RULES.md quotes every sentence of the papers, and all that it names is there."""
import unittest

from papers import LANDED, REQUEST, PAPERS, demanded
from rules import RULES, ROOT, Rules, faults


class Page(unittest.TestCase):
    def test_no_faults(self):
        self.assertEqual(faults(), [])

    def test_every_paper_has_its_part(self):
        rules = Rules((ROOT / RULES).read_text())
        self.assertEqual([name for name, _ in demanded()], list(rules.papers))

    def test_what_has_landed_is_a_request(self):
        lines = (PAPERS / '02-change-requests.md').read_text().splitlines()
        requests = [REQUEST.match(line)[1] for line in lines if REQUEST.match(line)]
        self.assertEqual(requests, [f'C-{n}' for n in range(11, 25)])
        self.assertLessEqual(set(LANDED), set(requests))


if __name__ == '__main__':
    unittest.main()
