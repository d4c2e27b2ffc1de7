"""The module declares what the header declares, and says how to make the library where it is missing."""
import ctypes
import inspect
import os
import subprocess
import sys
import unittest

from cases import Case
from repository import MODULE
from tufakpeni import Pair, Trace, _library, cut, cut_into, find_fault, find_frame, join, join_into

import header
import layout

TYPES = {
    'uint8_t': ctypes.c_uint8, 'uint16_t': ctypes.c_uint16, 'uint32_t': ctypes.c_uint32, 'uint64_t': ctypes.c_uint64,
    'int64_t': ctypes.c_int64, 'size_t': ctypes.c_size_t,
}
STRUCTS = {
    'settings': 'Settings', 'count': 'Count', 'mark': 'Mark', 'place': 'Place', 'frame_part': 'FramePart',
    'line': 'Line', 'frame': 'FrameRecord', 'block': 'Block', 'value': 'Value', 'range': 'Range',
    'selection': 'Selection', 'length': 'Length', 'pair_part': 'PairPart', 'part': 'Part', 'dat_summary': 'Summary',
    'cpu_range': 'CpuRange',
}


def declared(kind):
    """The module's type for a type of the header."""
    name, _, length = kind.rstrip(']').partition('[')
    if length:
        return declared(name) * int(length)
    if '*' in kind:
        return ctypes.c_void_p
    return TYPES.get(kind) or getattr(_library, STRUCTS[kind[len('tfk_'):]])


def lines(struct, name):
    """A struct of the module and its fields, in the words of the stored layouts but for the types."""
    kind = getattr(_library, name)
    yield f'struct tfk_{struct} {ctypes.sizeof(kind)}'
    for field, _ in kind._fields_:
        yield f'field tfk_{struct} {field} {getattr(kind, field).offset} {getattr(kind, field).size}'


class Header(Case):
    def test_structs(self):
        found = header.read().structs
        self.assertEqual(set(found), {f'tfk_{name}' for name in STRUCTS})
        for name, fields in found.items():
            self.assertEqual(declared(name)._fields_, [(field, declared(kind)) for field, kind in fields], name)

    def test_every_struct_of_the_module_is_in_the_header(self):
        kinds = [name for name, value in vars(_library).items()
                 if isinstance(value, type) and issubclass(value, ctypes.Structure)]
        self.assertEqual(sorted(kinds), sorted(STRUCTS.values()))

    def test_layout(self):
        stored = layout.stored(_library.INTERFACE).read_text().splitlines()
        about_structs = [' '.join(line.split()[:5]) for line in stored if line.startswith(('struct ', 'field '))]
        self.assertEqual([line for names in STRUCTS.items() for line in lines(*names)], about_structs)

    def test_calls(self):
        found = {name: (declared(answer), *(declared(kind) for _, kind in parameters))
                 for name, (answer, parameters) in header.read().calls.items()}
        self.assertEqual(_library.CALLS, found)

    def test_number(self):
        self.assertEqual(_library.INTERFACE, header.read().number)


class Defaults(Case):
    def test_settings(self):
        """A caller that says nothing of the base has the library's own default."""
        for order in (0, 1, 255):
            given = _library.call('tfk_default_settings', order)
            self.assertEqual((given.order, given.base), (order, 16))
        for call in (Trace, Pair, cut, cut_into, find_fault, find_frame, join, join_into):
            *_, order, base = inspect.signature(call).parameters.values()
            self.assertEqual((order.name, order.default, base.name, base.default), ('order', 'little', 'base', 16))


class Missing(Case):
    def run_python(self, code, **environment):
        environment = {**os.environ, 'PYTHONPATH': str(MODULE), **environment}
        return subprocess.run([sys.executable, '-c', code], env=environment, capture_output=True, text=True)

    def test_error_says_how_to_make_it(self):
        ended = self.run_python('import tufakpeni; tufakpeni.Trace(b"")', TUFAKPENI_LIBRARY='/nowhere/lib.so')
        self.assertEqual(ended.returncode, 1)
        for words in ('LibraryMissing', '/nowhere/lib.so is not there', 'cd crates/trace_c && rt lib', 'gcc -shared',
                      'TUFAKPENI_LIBRARY'):
            self.assertIn(words, ended.stderr)

    def test_default_place_is_beside_the_module(self):
        ended = self.run_python('from tufakpeni import _library; print(_library.place())', TUFAKPENI_LIBRARY='')
        self.assertEqual(ended.stdout.strip(), str(MODULE / 'tufakpeni/libtufakpeni.so'))


if __name__ == '__main__':
    unittest.main()
