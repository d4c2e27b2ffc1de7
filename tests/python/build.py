"""Traces and trace.dat headers as bytes, field by field as document 01 writes them."""

HEAD = b'\x7fTRACE0\n'
BARE = HEAD + b'\n'
MAGIC = b'\x17\x08\x44'
LIMIT = 67_108_864
MARK = bytes(4)


class GdbTrace:
    """Makes traces in one byte order."""

    def __init__(self, order):
        self.order = order

    def number(self, value, size, signed=False):
        return value.to_bytes(size, self.order, signed=signed)

    def registers(self, data):
        return b'R' + data

    def memory(self, address, data):
        return b'M' + self.number(address, 8) + self.number(len(data), 2) + data

    def variable(self, number, value):
        return b'V' + self.number(number, 4) + self.number(value, 8, signed=True)

    def frame(self, tracepoint, *blocks):
        data = b''.join(blocks)
        return self.number(tracepoint, 2) + self.number(len(data), 4) + data

    def trace(self, lines, *frames):
        return HEAD + b''.join(line.encode() + b'\n' for line in lines) + b'\n' + b''.join(frames)


LITTLE = GdbTrace('little')
BIG = GdbTrace('big')


class Dat:
    """Makes trace.dat files. A field that is not given is empty or 0; `rest` follows the header."""

    def __init__(self, order='little', version=b'6\0', long_size=8, page_size=4096, header_page=b'', header_event=b'',
                 formats=(), systems=(), kallsyms=b'', printk=b'', processes=b'', options=None, ending=b'flyrecord\0',
                 cpus=(), cpu_count=None, rest=b''):
        self.order = order
        self.pieces = [
            MAGIC, b'tracing', version, bytes([order == 'big', long_size]), self.number(page_size, 4),
            b'header_page\0', self.sized(header_page, 8), b'header_event\0', self.sized(header_event, 8),
            self.number(len(formats), 4), *(self.sized(text, 8) for text in formats),
            self.number(len(systems), 4), *(self.system(*system) for system in systems),
            self.sized(kallsyms, 4), self.sized(printk, 4), self.sized(processes, 8),
            self.number(len(cpus) if cpu_count is None else cpu_count, 4), *self.options(options), ending,
            *(self.number(number, 8) for cpu in cpus for number in cpu), rest,
        ]

    def number(self, value, size):
        return value.to_bytes(size, self.order)

    def sized(self, data, width):
        return self.number(len(data), width) + data

    def system(self, name, formats):
        return name + b'\0' + self.number(len(formats), 4) + b''.join(self.sized(text, 8) for text in formats)

    def options(self, options):
        if options is None:
            return []
        listed = [self.number(kind, 2) + self.sized(data, 4) for kind, data in options]
        return [b'options  \0', *listed, self.number(0, 2)]

    def bytes(self):
        return b''.join(self.pieces)


def dat(**fields):
    return Dat(**fields).bytes()
