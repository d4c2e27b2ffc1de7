"""The layout of the interface as text: what the compiler makes of the header's structs; its calls and named numbers.

Each number of the interface has its layout stored once, in layout-NUMBER.txt. As a command:
    layout.py               prints the header's layout
    layout.py --store       stores it for the header's number, which may have none yet
    layout.py --assertions  prints a program that does not compile where a struct has another layout than is stored"""
import subprocess
import sys
import tempfile
from pathlib import Path

import header

STORED = 'layout-{}.txt'
CHANGED = """The header no longer has the layout that is stored for its number. Where the change is meant:
1. Raise the number by one: TFK_INTERFACE in include/tufakpeni.h; specs/Interface.antt, src/interface.rt and
   must-fail/another_number.edit in crates/trace_c; INTERFACE in bindings/rust/src/raw.rs, tests/rust/src/c.rs and
   bindings/python/tufakpeni/_library.py.
2. Run python3 tests/interface/layout.py --store. A layout that is stored is never changed."""


def stored(number):
    """Where the layout of a number stands."""
    return Path(__file__).resolve().parent / STORED.format(number)


def every_stored():
    """Each number that has a layout, and that layout."""
    return {path.stem: path.read_text() for path in sorted(stored(0).parent.glob(STORED.format('*')))}


def printing(structs):
    """A C program that prints the size of each struct, and each field's type, offset and size."""
    yield from ('#include <stdio.h>', '#include "tufakpeni.h"', 'int main(void)', '{')
    for struct, fields in structs.items():
        yield f'printf("struct {struct} %zu\\n", sizeof({struct}));'
        for field, kind in fields:
            places = f'offsetof({struct}, {field}), sizeof((({struct} *)0)->{field})'
            yield f'printf("field {struct} {field} %zu %zu {kind}\\n", {places});'
    yield '}'


def measured(structs):
    with tempfile.TemporaryDirectory() as folder:
        program = Path(folder) / 'layout'
        words = ['gcc', '-std=c99', '-Wall', '-Werror', f'-I{header.HEADER.parent}', '-x', 'c', '-', '-o', program]
        subprocess.run(words, input='\n'.join(printing(structs)) + '\n', text=True, check=True)
        return subprocess.run([program], stdout=subprocess.PIPE, text=True, check=True).stdout


def layout():
    """The layout of the header as it is."""
    found = header.read()
    calls = [f'call {answer} {name}({", ".join(f"{kind} {parameter}" for parameter, kind in parameters)})\n'
             for name, (answer, parameters) in found.calls.items()]
    values = [f'value {name} {value}\n' for name, value in found.values.items()]
    return measured(found.structs) + ''.join(calls + values)


def assertions(text):
    """A program of one assertion for each struct's size and each field's offset and size."""
    yield from ('#include <assert.h>', '#include "tufakpeni.h"')
    for word, *rest in map(str.split, text.splitlines()):
        if word == 'struct':
            yield 'static_assert(sizeof({0}) == {1}, "{0}");'.format(*rest)
        elif word == 'field':
            yield 'static_assert(offsetof({0}, {1}) == {2}, "{0}.{1}");'.format(*rest)
            yield 'static_assert(sizeof((({0} *)0)->{1}) == {3}, "{0}.{1}");'.format(*rest)


def main(words):
    place = stored(header.read().number)
    if words == ['--store']:
        text = layout()
        with open(place, 'x') as file:
            file.write(text)
    elif words == ['--assertions']:
        print('\n'.join(assertions(place.read_text())))
    elif not words:
        print(layout(), end='')
    else:
        sys.exit(__doc__)


if __name__ == '__main__':
    main(sys.argv[1:])
