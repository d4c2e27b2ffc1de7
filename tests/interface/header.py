"""The header as data: its number, structs, calls and named numbers. A line that is not understood is an error."""
import re
from pathlib import Path
from typing import NamedTuple

ROOT = Path(__file__).resolve().parents[2]
HEADER = ROOT / 'include/tufakpeni.h'

OUTSIDE = re.compile(r'/\*.*?\*/|^#ifdef __cplusplus\n(?:extern "C" \{|\})\n#endif$'
                     r'|^#ifndef TUFAKPENI_H\n#define TUFAKPENI_H$|^#include <std(?:def|int)\.h>$|^#define TFK_[^\n]*$|^#endif$', re.M | re.S)
DEFINED = re.compile(r'^#define (TFK_\w+) (\d+)$', re.M)
PART = re.compile(r'typedef struct \{(?P<fields>[^}]*)\} (?P<struct>\w+);'
                  r'|enum \{(?P<values>[^}]*)\};'
                  r'|(?P<answer>\w+) (?P<call>\w+)\((?P<parameters>[^)]*)\);')
FIELD = re.compile(r'(\w+) (\w+)(\[\d+\])?;')
VALUE = re.compile(r'(\w+) = (\d+),?')
PARAMETER = re.compile(r'((?:const )?\w+ \*?)(\w+),?')


class Header(NamedTuple):
    number: int
    structs: dict   # a struct's fields in order, each a name and its type
    calls: dict     # a call's answer, and its parameters likewise
    values: dict


def found(pattern, text):
    """Every match in a text that has nothing else in it but space."""
    rest = pattern.sub('', text).strip()
    if rest:
        raise ValueError(f'the header has what this reading of it does not know: {rest}')
    return [match.groups() for match in pattern.finditer(text)]


def parsed(text):
    structs, calls = {}, {}
    values = {name: int(value) for name, value in DEFINED.findall(text)}
    number = values.pop('TFK_INTERFACE')
    for fields, struct, listed, answer, call, parameters in found(PART, OUTSIDE.sub('', text)):
        if (struct or call) in {**structs, **calls}:
            raise ValueError(f'the header declares {struct or call} twice')
        if struct:
            structs[struct] = [(name, kind + (array or '')) for kind, name, array in found(FIELD, fields)]
        elif call:
            listed = '' if parameters == 'void' else parameters
            calls[call] = (answer, [(name, kind.strip()) for kind, name in found(PARAMETER, listed)])
        else:
            values.update((name, int(value)) for name, value in found(VALUE, listed))
    return Header(number, structs, calls, values)


def read():
    return parsed(HEADER.read_text())
