"""Headers of trace.dat files of version 6."""
import struct
from typing import NamedTuple

from ._buffer import Holder
from ._library import ORDERS, Part, Summary, ask, index

MAGIC = b'\x17\x08\x44'
ENDINGS = ('latency', 'flyrecord')
ENTRIES = {'little': '<QQ', 'big': '>QQ'}
SECTIONS = tuple(name for name, kind in Summary._fields_ if kind is Part)


class Section(NamedTuple):
    """A section of the file."""

    place: int
    size: int
    data: memoryview


class CpuRange(NamedTuple):
    """A CPU's range, as stored."""

    offset: int
    size: int


class TraceDat(Holder):
    """The header of a trace.dat file over the caller's bytes. Where they are none, making it raises Refused.

    Each section's name is an attribute that gives its bytes: header_page, header_event, formats and systems (after
    their counts), kallsyms, printk, processes, options, and body, which is the CPU entries or a latency file's text."""

    def __init__(self, data):
        super().__init__(data)

    def _read(self):
        summary = ask('tfk_dat_read', *self._files)
        self.order = ORDERS[summary.order]
        self.long_size = summary.long_size
        self.page_size = summary.page_size
        self.format_count = summary.format_count
        self.system_count = summary.system_count
        self.cpu_count = summary.cpu_count
        self.ending = ENDINGS[summary.ending]
        self._parts = {name: getattr(summary, name) for name in SECTIONS}

    def section(self, name):
        """A section's place, size and bytes."""
        part = self._parts[name]
        return Section(part.place, part.size, self.part(part.place, part.size))

    def __getattr__(self, name):
        if name not in SECTIONS:
            raise AttributeError(name)
        return self.section(name).data

    @property
    def header_end(self):
        """The byte after the last CPU entry, or after the `latency` word."""
        body = self._parts['body']
        return body.place if self.ending == 'latency' else body.place + body.size

    def cpu_range(self, i):
        """CPU i's range. A latency file has none: it is refused with 12."""
        answer = ask('tfk_dat_cpu_range', *self._files, index(i))
        return CpuRange(answer.offset, answer.size)

    @property
    def cpus(self):
        """Every CPU's range, taken from the entries; of a latency file there is none."""
        entries = b'' if self.ending == 'latency' else self.body
        return [CpuRange(*entry) for entry in struct.iter_unpack(ENTRIES[self.order], entries)]
