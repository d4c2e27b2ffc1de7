"""What docs/PERFORMANCE.md says of the archives: no call and no code may take more."""
import re

from division import ROOT

STACK = re.compile(r'^\| `(tfk_\w+)` \| ([0-9,]+) \| ([0-9,]+) \|$', re.M)
CODE = re.compile(r'^The code for RISC-V has at most ([0-9,]+) bytes', re.M)
COLUMNS = {'x86-64': 1, 'RISC-V': 2}


def text():
    return (ROOT / 'docs/PERFORMANCE.md').read_text()


def number(written):
    return int(written.replace(',', ''))


def stacks(machine):
    """The deepest stack of each call."""
    return {row[0]: number(row[COLUMNS[machine]]) for row in STACK.findall(text())}


def code():
    """The bytes of code for RISC-V."""
    size, = CODE.findall(text())
    return number(size)
