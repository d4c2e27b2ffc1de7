"""trace.dat headers: document 01's cases on both sides of each edge."""
import unittest

from build import dat
from cases import Case
from tufakpeni import CpuRange, TraceDat

NAMES = ('header_page', 'header_event', 'formats', 'systems', 'kallsyms', 'printk', 'processes', 'options', 'body')
LATENCY = b'latency  \0'


def parts(header):
    return {name: (header.section(name).place, header.section(name).size) for name in NAMES}


class Smallest(Case):
    def test_97_bytes(self):
        file = dat()
        self.assertEqual(len(file), 97)
        header = TraceDat(file)
        self.assertEqual((header.order, header.long_size, header.page_size, header.ending, header.header_end),
                         ('little', 8, 4096, 'flyrecord', 97))
        self.assertEqual((header.format_count, header.system_count, header.cpu_count, header.cpus), (0, 0, 0, []))
        self.assertEqual(parts(header), {
            'header_page': (38, 0), 'header_event': (59, 0), 'formats': (63, 0), 'systems': (67, 0),
            'kallsyms': (71, 0), 'printk': (75, 0), 'processes': (83, 0), 'options': (0, 0), 'body': (97, 0)})

    def test_cut_short_everywhere(self):
        for length in range(97):
            self.refused(14, TraceDat, dat()[:length])

    def test_more_bytes_behind(self):
        self.assertEqual(TraceDat(dat(rest=b'clock')).header_end, 97)

    def test_latency(self):
        header = TraceDat(dat(order='big', ending=LATENCY, cpu_count=2, rest=b'text'))
        self.assertEqual((header.order, header.ending, header.cpu_count, header.cpus), ('big', 'latency', 2, []))
        self.assertEqual((bytes(header.body), header.header_end), (b'text', 97))
        self.refused(12, header.cpu_range, 0)


class Sections(Case):
    FIELDS = dict(header_page=b'page', header_event=b'event', formats=[b'f1', b''],
                  systems=[(b'', []), (b'sched', [b'switch', b'wake'])], kallsyms=b'symbols', printk=b'formats',
                  processes=b'names', options=[(4, b'clock'), (4, b''), (65535, b'x')])

    def test_every_section(self):
        for order in ('little', 'big'):
            file = dat(order=order, long_size=4, page_size=1024, **self.FIELDS, cpus=[(1024, 4), (0, 0)],
                       rest=bytes(2000))
            header = TraceDat(file)
            self.assertEqual((header.order, header.long_size, header.page_size), (order, 4, 1024))
            self.assertEqual((header.format_count, header.system_count, header.cpu_count), (2, 2, 2))
            for name, data in self.FIELDS.items():
                if isinstance(data, bytes):
                    self.assertEqual(bytes(getattr(header, name)), data)
            self.assertEqual([header.section(name).size for name in ('formats', 'systems', 'options', 'body')],
                             [18, 41, 26, 32])
            self.assertEqual(header.cpus, [CpuRange(1024, 4), CpuRange(0, 0)])
            self.assertEqual(header.header_end, len(file) - 2000)
            for name in NAMES:
                section = header.section(name)
                self.assertEqual(section.data, file[section.place:section.place + section.size])

    def test_no_such_section(self):
        self.assertRaises(AttributeError, getattr, TraceDat(dat()), 'trailer')

    def test_an_empty_list_of_options(self):
        self.assertEqual(TraceDat(dat(options=[])).section('options')[:2], (97, 2))
        self.refused(15, TraceDat, dat(options=[], ending=b'options  \0'))

    def test_sizes_past_the_file(self):
        file = dat(**self.FIELDS)
        for length in range(len(file)):
            self.refused(14, TraceDat, file[:length])


class Constants(Case):
    def test_wrong(self):
        file = dat()
        for place, wrong in ((0, 0x16), (3, ord('T')), (10, ord('7')), (11, 1), (12, 2), (13, 5), (13, 0),
                             (18, ord('H')), (29, 1), (38, ord('H')), (87, ord('F')), (96, 1)):
            changed = bytearray(file)
            changed[place] = wrong
            self.refused(15, TraceDat, changed)

    def test_page_sizes(self):
        for size in (1024, 2048, 4096, 8192, 16384, 32768, 65536):
            self.assertEqual(TraceDat(dat(page_size=size)).page_size, size)
        for size in (0, 512, 1023, 1025, 3072, 65535, 65537, 131072):
            self.refused(15, TraceDat, dat(page_size=size))

    def test_long_sizes(self):
        self.assertEqual([TraceDat(dat(long_size=size)).long_size for size in (4, 8)], [4, 8])


class Cpus(Case):
    def ranges(self, *cpus, size=20000):
        """A file of this size; the ranges are stored as given."""
        file = dat(cpus=cpus)
        return file + bytes(size - len(file))

    def test_count(self):
        full = dat(cpus=[(5, 0)] * 1024)
        self.assertEqual(TraceDat(full).cpu_range(1023), CpuRange(5, 0))
        self.refused(14, TraceDat, full[:-1])
        self.refused(14, TraceDat, dat(cpu_count=1024))
        self.refused(16, TraceDat, dat(cpu_count=1025))
        self.refused(16, TraceDat, dat(cpu_count=1025, ending=b''))
        self.refused(16, TraceDat, dat(cpu_count=1025, ending=LATENCY))

    def test_all_and_each(self):
        """1,024 CPUs out of order: the list has what the library answers for each."""
        start = 2 ** 15
        cpus = [(start + cpu * 421 % 1024 * 4096, 4096 - cpu) for cpu in range(1024)]
        for order in ('little', 'big'):
            with self.subTest(order):
                file = dat(order=order, cpus=cpus)
                header = TraceDat(file + bytes(start + 1024 * 4096 - len(file)))
                self.assertEqual(header.cpus, cpus)
                self.assertEqual([header.cpu_range(i) for i in range(0, 1024, 101)], cpus[::101])

    def test_questions(self):
        header = TraceDat(self.ranges((4096, 4096), (2 ** 64 - 1, 0)))
        self.assertEqual(header.cpus, [CpuRange(4096, 4096), CpuRange(2 ** 64 - 1, 0)])
        for i in (2, -1, 2 ** 64):
            self.refused(12, header.cpu_range, i)

    def test_edges(self):
        for number, cpus in (
                (None, [(4096, 15904)]), (16, [(4096, 15905)]), (16, [(4097, 1)]), (16, [(2048, 1)]), (16, [(0, 1)]),
                (16, [(20480, 1)]), (16, [(2 ** 64 - 4096, 8192)]), (None, [(1, 0), (2 ** 64 - 1, 0)]),
                (None, [(8192, 4096), (4096, 4096)]), (17, [(8192, 4096), (4096, 4097)]), (17, [(4096, 1), (4096, 1)]),
                (None, [(4096, 1), (4096, 0)]), (16, [(4096, 1), (4096, 1), (3, 1)])):
            with self.subTest(cpus=cpus):
                file = self.ranges(*cpus)
                if number is None:
                    self.assertEqual(TraceDat(file).cpus, cpus)
                else:
                    self.refused(number, TraceDat, file)

    def test_right_at_the_headers_end(self):
        cpus = [(4096, 16)] + [(0, 0)] * 246
        padding = 4096 - len(dat(cpus=cpus))
        file = dat(cpus=cpus, kallsyms=bytes(padding), rest=bytes(16))
        self.assertEqual((TraceDat(file).header_end, TraceDat(file).cpus[0]), (4096, (4096, 16)))
        self.refused(16, TraceDat, dat(cpus=cpus, kallsyms=bytes(padding + 1), rest=bytes(16)))


if __name__ == '__main__':
    unittest.main()
