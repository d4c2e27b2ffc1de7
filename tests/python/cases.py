"""What the tests share: a check of a refusal's number, maps and addresses, and a note of what the library is asked."""
import contextlib
import mmap
import tempfile
import unittest
from unittest import mock

import repository  # noqa: F401, makes tufakpeni importable
from tufakpeni import Refused, _library
from tufakpeni._buffer import flat, lent


class Case(unittest.TestCase):
    def refused(self, number, call, *arguments):
        """The call raises Refused with this number."""
        with self.assertRaises(Refused) as caught:
            call(*arguments)
        self.assertEqual(caught.exception.number, number)


def mapped(data, access=mmap.ACCESS_READ):
    with tempfile.TemporaryFile() as file:
        file.write(data)
        file.flush()
        return mmap.mmap(file.fileno(), 0, access=access)


def address(data):
    with flat(data) as view, lent(view) as (start, _):
        return start


@contextlib.contextmanager
def questions():
    """The calls that the library is asked meanwhile, each as its name and what it is given."""
    asked, library = [], _library.library()

    class Noting:
        def __getattr__(self, name):
            def call(*given):
                asked.append((name, given))
                return getattr(library, name)(*given)
            return call

    with mock.patch.object(_library, 'library', Noting):
        yield asked
