"""Cases that are counted."""
import contextlib

from tufakpeni import Refused


class Report:
    def __init__(self):
        self.passed = 0
        self.failed = 0

    @contextlib.contextmanager
    def case(self, name):
        """One case: it fails where its block raises."""
        try:
            yield
        except Exception as error:
            print(f'FAILED: {name}: {type(error).__name__}: {error}')
            self.failed += 1
        else:
            self.passed += 1


def same(found, expected, what=''):
    if found != expected:
        raise AssertionError(f'{what}: {found!r} is not {expected!r}')


def refusal(call, *arguments):
    """What a call is refused with; None where it is not."""
    try:
        call(*arguments)
    except Refused as refused:
        return refused.number
    return None
