"""Builds trace.dat headers of version 6, and the listing that each must have.

A header is put together piece by piece, so each section's place is the length of what stands before it."""

MAGIC = b'\x17\x08\x44'
WORDS = {'options': b'options  \0', 'latency': b'latency  \0', 'flyrecord': b'flyrecord\0'}


class Header:
    """The bytes so far, and the lines of the listing so far."""

    def __init__(self, order='little'):
        self.order = order
        self.bytes = b''
        self.lines = []
        self.cpus = 0

    def put(self, data):
        self.bytes += data
        return self

    def number(self, width, n):
        return self.put(n.to_bytes(width, self.order))

    def said(self, *words):
        self.lines.append(' '.join(str(w) for w in words))

    def opening(self, long=8, page=4096):
        self.put(MAGIC + b'tracing' + b'6\0').number(1, self.order == 'big').number(1, long).number(4, page)
        self.said('order', self.order)
        self.said('long', long)
        self.said('page', page)
        return self

    def sized(self, name, width, data):
        self.number(width, len(data))
        self.said(name, len(self.bytes), len(data))
        return self.put(data)

    def formats(self, texts):
        self.number(4, len(texts))
        for text in texts:
            self.number(8, len(text)).put(text)
        return self

    def counted(self, name, count, write):
        """Elements after their count, which `write` puts there with it."""
        at = len(self.bytes) + 4
        write()
        self.said(name, at, len(self.bytes) - at, count)
        return self

    def systems(self, systems):
        self.number(4, len(systems))
        for name, texts in systems:
            self.put(name + b'\0').formats(texts)

    def sections(self, page=b'', event=b'', formats=(), systems=()):
        self.put(b'header_page\0').sized('header_page', 8, page)
        self.put(b'header_event\0').sized('header_event', 8, event)
        self.counted('formats', len(formats), lambda: self.formats(formats))
        return self.counted('systems', len(systems), lambda: self.systems(systems))

    def texts(self, kallsyms=b'', printk=b'', processes=b'', cpus=0):
        self.sized('kallsyms', 4, kallsyms).sized('printk', 4, printk).sized('processes', 8, processes)
        self.cpus = cpus
        return self.number(4, cpus)

    def options(self, options):
        """A list of (type, data), or None for no options at all."""
        if options is None:
            self.said('options', 0, 0)
            return self
        at = len(self.put(WORDS['options']).bytes)
        for kind, data in options:
            self.number(2, kind).number(4, len(data)).put(data)
        self.number(2, 0)
        self.said('options', at, len(self.bytes) - at)
        return self

    def flyrecord(self, ranges):
        self.put(WORDS['flyrecord'])
        at = len(self.bytes)
        for offset, size in ranges:
            self.number(8, offset).number(8, size)
        self.said('flyrecord', at, len(self.bytes) - at)
        self.said('cpus', self.cpus)
        for i, (offset, size) in enumerate(ranges):
            self.said('cpu', i, offset, size)
        self.said('cpu', len(ranges), 'refused', 12)
        return self

    def latency(self, text):
        self.put(WORDS['latency'])
        self.said('latency', len(self.bytes), len(text))
        self.said('cpus', self.cpus)
        for i in range(self.cpus + 1):
            self.said('cpu', i, 'refused', 12)
        return self.put(text)

    def listing(self):
        return '\n'.join(self.lines) + '\n'


def flyrecord(ranges=(), order='little', long=8, page=4096, options=None, sections=None, texts=None):
    """A header that ends with CPU entries."""
    h = Header(order).opening(long, page).sections(**(sections or {}))
    return h.texts(cpus=len(ranges), **(texts or {})).options(options).flyrecord(ranges)


def latency(text=b'', cpus=0, order='little', long=8, options=None):
    """A header that ends with text."""
    return Header(order).opening(long).sections().texts(cpus=cpus).options(options).latency(text)
