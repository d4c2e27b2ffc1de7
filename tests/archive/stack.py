"""The deepest stack of each call of an archive, in bytes, by its disassembly for x86-64.

    python3 tests/archive/stack.py [ARCHIVE]

Of a call are counted the caller's return address, all that its function and those below it push or keep, and nothing of what the archive does
not have (memset). What cannot be told stops it: a stack pointer that is computed, a call by a pointer, a function that calls itself."""
import re
import sys

import depth
from depth import Step
from division import ARCHIVE, FUNCTION, called_outside, told_by

INSTRUCTION = re.compile(r'^ *([0-9a-f]+):\t(\S+) *([^\t]*?)(?:\t[0-9a-f]+: R_X86_64_(?:PLT|PC)32\t(.*?)-0x4)?$')
MOVES = {'push': 8, 'pop': -8}
CHANGES = re.compile(r'%rsp$')
AMOUNT = re.compile(r'^\$0x([0-9a-f]+),%rsp$')
JUMP = re.compile(r'^([0-9a-f]+) <')
ADDRESS = 8


def moved(name, operands):
    """How many bytes an instruction adds to the stack."""
    if name in MOVES:
        return MOVES[name]
    amount = AMOUNT.match(operands)
    if name in ('sub', 'add') and amount:
        return int(amount[1], 16) * (1 if name == 'sub' else -1)
    if name not in ('cmp', 'test') and CHANGES.search(operands) or name in ('leave', 'enter'):
        raise ValueError(f'the stack is moved by {name} {operands}')
    return 0


def step(name, operands, callee):
    if name == 'call':
        if not callee:
            raise ValueError(f'a call by a pointer: {operands}')
        return Step(callee=callee, pushed=ADDRESS)
    if not name.startswith('j'):
        return Step(moved(name, operands), goes_on=name not in ('ret', 'ud2'))
    # A jump to another function leaves it the return address that stands there.
    target = JUMP.match(operands)
    if not callee and not target:
        raise ValueError(f'a jump to a place that is computed: {operands}')
    return Step(target=None if callee else target[1], callee=callee, goes_on=name != 'jmp')


def functions(archive):
    found, steps = {}, None
    for line in told_by('objdump', '-d', '-r', '-w', '--no-show-raw-insn', archive):
        starts, holds = FUNCTION.match(line), INSTRUCTION.match(line)
        if starts:
            found[starts[1]] = steps = {}
        elif holds:
            at, name, operands, named = holds.groups()
            goes = name == 'call' or name.startswith('j')
            steps[at] = step(name, operands, named.removeprefix('.text.') if goes and named else None)
    return found


def deepest(archive):
    """The deepest stack of each exported call, the caller's return address counted."""
    return {name: ADDRESS + below for name, below in depth.deepest(functions(archive), called_outside(archive)).items()}


def main(archive=ARCHIVE):
    for name, bytes_ in deepest(archive).items():
        print(f'{name} {bytes_}')


if __name__ == '__main__':
    main(*sys.argv[1:2])
