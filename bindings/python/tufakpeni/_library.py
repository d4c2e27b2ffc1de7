"""The shared library: its place, and its structs and calls as include/tufakpeni.h declares them."""
import contextlib
import ctypes
import functools
import operator
import os
import pathlib
from ctypes import c_int64, c_size_t, c_uint8, c_uint16, c_uint32, c_uint64, c_void_p

from ._buffer import lent
from .refusal import Refused

VARIABLE = 'TUFAKPENI_LIBRARY'
NAME = 'libtufakpeni.so'

# The number of the interface that is declared here, as include/tufakpeni.h had it.
INTERFACE = 6

MAKE = f"""Make it in the repository's root by
    (cd crates/trace_c && rt lib --cpu=x86-64)
    gcc -shared -o bindings/python/tufakpeni/{NAME} \\
        -Wl,--whole-archive crates/trace_c/out/libtrace_c.a -Wl,--no-whole-archive
or name its place in the environment variable {VARIABLE}."""
MISSING = f'there is no {NAME}: {{place}} is not there.\n{MAKE}'
UNFIT = f"{{place}} has {{found}}, and this module needs the interface of number {INTERFACE}.\n{MAKE}"


class LibraryMissing(ImportError):
    """The shared library is not where it should be."""


class LibraryUnfit(ImportError):
    """The shared library has another interface than this module: it would take one struct for another."""


def struct(name, **fields):
    return type(name, (ctypes.Structure,), {'_fields_': list(fields.items())})


Settings = struct('Settings', order=c_uint8, base=c_uint8)
Count = struct('Count', refusal=c_uint8, count=c_size_t)
Mark = struct('Mark', refusal=c_uint8, marked=c_uint8)
Place = struct('Place', refusal=c_uint8, place=c_size_t, length=c_size_t)
FramePart = struct('FramePart', refusal=c_uint8, place=c_size_t, length=c_size_t, heads=c_size_t)
Line = struct('Line', refusal=c_uint8, kind=c_uint8, place=c_size_t, length=c_size_t)
FrameRecord = struct('FrameRecord', tracepoint=c_uint16, has_registers=c_uint8, place=c_size_t, size=c_size_t,
                     registers_place=c_size_t)
Block = struct('Block', refusal=c_uint8, letter=c_uint8, number=c_uint32, place=c_size_t, address=c_uint64,
               length=c_size_t, value=c_int64)
Value = struct('Value', refusal=c_uint8, value=c_int64)
Range = struct('Range', low=c_uint16, high=c_uint16)
Ranges = Range * 8
Selection = struct('Selection', ranges=Ranges, count=c_size_t, keep=c_uint8)
Length = struct('Length', refusal=c_uint8, length=c_size_t)
PairPart = struct('PairPart', refusal=c_uint8, trace=c_uint8, place=c_size_t, length=c_size_t)
Part = struct('Part', place=c_size_t, size=c_size_t)
Summary = struct('Summary', refusal=c_uint8, order=c_uint8, long_size=c_uint8, ending=c_uint8, page_size=c_uint32,
                 format_count=c_uint32, system_count=c_uint32, cpu_count=c_uint32, header_page=Part,
                 header_event=Part, formats=Part, systems=Part, kallsyms=Part, printk=Part, processes=Part,
                 options=Part, body=Part)
CpuRange = struct('CpuRange', refusal=c_uint8, offset=c_uint64, size=c_uint64)

BYTES = (c_void_p, c_size_t)
TRACE = (Settings, *BYTES)
TRACES = (Settings, *BYTES, *BYTES)

# Each call's answer and its arguments.
CALLS = {
    'tfk_interface': (c_uint64,),
    'tfk_default_settings': (Settings, c_uint8),
    'tfk_frame_count': (Count, *TRACE),
    'tfk_end_mark': (Mark, *TRACE),
    'tfk_frame_table': (Count, *TRACE, *BYTES),
    'tfk_line_place': (Line, *TRACE, c_size_t),
    'tfk_frame_place': (FramePart, *TRACE, c_size_t),
    'tfk_block_record': (Block, *TRACE, c_size_t, c_size_t),
    'tfk_registers_place': (Place, *TRACE, c_size_t),
    'tfk_memory_place': (Place, *TRACE, c_size_t, c_uint64),
    'tfk_variable': (Value, *TRACE, c_size_t, c_uint32),
    'tfk_opposite': (Selection, Selection),
    'tfk_cut': (Length, *TRACE, Selection, *BYTES),
    'tfk_join': (Length, *TRACES, *BYTES),
    'tfk_pair_place': (PairPart, *TRACES, c_size_t),
    'tfk_pair_variable': (Value, *TRACES, c_size_t, c_uint32),
    'tfk_dat_read': (Summary, *BYTES),
    'tfk_dat_cpu_range': (CpuRange, *BYTES, c_size_t),
}

ORDERS = ('little', 'big')
NO_ORDER = len(ORDERS)
BASES = (10, 16)
NO_BASE = 0
NO_INDEX = c_size_t(-1).value


def place():
    """Where the library should be."""
    return pathlib.Path(os.environ.get(VARIABLE) or pathlib.Path(__file__).parent / NAME)


@functools.lru_cache(maxsize=None)
def library():
    """The library, loaded with the first call."""
    if not place().is_file():
        raise LibraryMissing(MISSING.format(place=place()))
    # PyDLL keeps Python's lock: the library tests a file and then trusts it, so no thread may change it during a call.
    loaded = ctypes.PyDLL(str(place().resolve()))
    demand_fit(loaded)
    for name in CALLS:
        declare(loaded, name)
    return loaded


def declare(loaded, name):
    function = getattr(loaded, name)
    function.restype, *function.argtypes = CALLS[name]
    return function


def demand_fit(loaded):
    """Raises LibraryUnfit where the library's interface is another, or older than its number."""
    try:
        number = declare(loaded, 'tfk_interface')()
    except AttributeError:
        raise LibraryUnfit(UNFIT.format(place=place(), found='no number of its interface')) from None
    if number != INTERFACE:
        raise LibraryUnfit(UNFIT.format(place=place(), found=f'the interface of number {number}'))


def call(name, *arguments):
    """The answer of a call. A view among the arguments is given as its address and length, held until the call ends."""
    with contextlib.ExitStack() as held:
        given = []
        for argument in arguments:
            if isinstance(argument, memoryview):
                given += held.enter_context(lent(argument))
            else:
                given.append(argument)
        return getattr(library(), name)(*given)


def ask(name, *arguments):
    """The same, where a refusal is raised."""
    answer = call(name, *arguments)
    if answer.refusal:
        raise Refused(answer.refusal)
    return answer


def settings(order, base):
    """How a trace is read. A word that names no byte order, and a base that is no byte, become numbers that the library
    refuses."""
    base = operator.index(base)
    return Settings(ORDERS.index(order) if order in ORDERS else NO_ORDER, base if fits(base, 8) else NO_BASE)


def index(n):
    """An index as the library takes it. What size_t cannot hold, no file holds: the largest index stands for it."""
    n = operator.index(n)
    return n if 0 <= n <= NO_INDEX else NO_INDEX


def fits(number, bits):
    """Whether a number is one of so many bits; ctypes would drop the others without a word."""
    return 0 <= operator.index(number) < 1 << bits
