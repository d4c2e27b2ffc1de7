"""The caller's bytes: every kind of buffer, no copy, and nothing let go while it is in use."""
import array
import ctypes
import mmap
import unittest

from build import BARE, LITTLE, dat
from cases import Case, address, mapped
from tufakpeni import Pair, Refused, Selection, Trace, TraceDat, cut, cut_into, find_fault, find_frame, join, join_into

# Of even length, so that it can be seen as 16-bit words too.
FILE = LITTLE.trace(['R 4'], LITTLE.frame(1, LITTLE.registers(b'abcd'), LITTLE.memory(16, b'vwxyz')))
EVERY = Selection([(0, 65535)])


class Kinds(Case):
    def kinds(self, data):
        return [data, bytearray(data), mapped(data), mapped(data, mmap.ACCESS_WRITE), memoryview(data),
                memoryview(bytearray(data)), memoryview(b'--' + data + b'--')[2:-2], array.array('B', data),
                (ctypes.c_uint16 * (len(data) // 2)).from_buffer_copy(data)]

    def test_every_kind(self):
        for data in self.kinds(FILE):
            with self.subTest(type(data).__name__):
                for frame in (*Trace(data), find_frame(data, 0)):
                    self.assertEqual(bytes(frame.registers), b'abcd')
                    self.assertEqual(bytes(frame.memory(17)), b'wxyz')
                self.assertIsNone(find_fault(data))
                self.assertEqual(cut(data, EVERY), FILE)
                self.assertEqual(join(data, data), FILE + FILE[13:])
                self.assertEqual(bytes(Pair(data, data).frame(1).data), bytes(frame.data))

    def test_trace_dat(self):
        for data in self.kinds(dat(options=[(1, b'x')])):
            self.assertEqual(len(TraceDat(data).options), 9)

    def test_empty(self):
        nowhere = (ctypes.c_char * 0).from_address(0)
        for data in (b'', bytearray(), memoryview(b''), array.array('Q'), nowhere, memoryview(FILE)[5:5]):
            self.refused(3, Trace, data)
            self.refused(3, find_frame, data, 0)
            self.refused(3, find_fault, data)
            self.refused(3, join, BARE, data)
            self.refused(14, TraceDat, data)
            self.refused(11, cut_into, bytearray(), BARE, EVERY)

    def test_an_empty_part(self):
        data = bytearray(LITTLE.trace([], LITTLE.frame(1)))
        for frame in (*Trace(data), find_frame(data, 0)):
            self.assertEqual(bytes(frame.data), b'')

    def test_what_is_no_buffer(self):
        for data in ('text', None, 7, [1, 2]):
            for call in (Trace, find_fault, lambda given: find_frame(given, 0)):
                self.assertRaises(TypeError, call, data)
                self.assertRaises(BufferError, call, memoryview(FILE)[::2])


class NoCopy(Case):
    def test_changes_are_seen(self):
        data = bytearray(FILE)
        frame, = Trace(data)
        registers, memory = frame.registers, frame.memory(16)
        data[data.index(b'abcd')] = ord('A')
        memory[0] = ord('V')
        self.assertEqual((bytes(registers), bytes(memory)), (b'Abcd', b'Vwxyz'))
        self.assertIn(b'Vwxyz', data)

    def test_addresses(self):
        for data in (FILE, bytearray(FILE), mapped(FILE), memoryview(FILE)):
            trace, start = Trace(data), address(data)
            frame, = trace
            self.assertEqual(address(trace.opening), start)
            self.assertEqual(address(trace.lines[0].data), start + 8)
            for each in (frame, find_frame(data, 0)):
                self.assertEqual(address(each.data), start + frame.place)
                self.assertEqual([address(block.data) for block in each.blocks], [start + 20, start + 35])
                self.assertEqual((address(each.registers), address(each.memory(17))), (start + 20, start + 36))
            self.assertEqual(address(Pair(BARE[:-1] + b'R 4\n\n', data).frame(0).data), start + frame.place)

    def test_trace_dat_addresses(self):
        data = dat(kallsyms=b'symbols')
        self.assertEqual(address(TraceDat(data).kallsyms), address(data) + data.index(b'symbols'))

    def test_parts_of_a_read_only_map_are_read_only(self):
        for frame in (Trace(mapped(FILE)).frame(0), find_frame(mapped(FILE), 0)):
            self.assertTrue(frame.data.readonly)


class Holding(Case):
    def test_a_bytearray_keeps_its_size(self):
        data = bytearray(FILE)
        with Trace(data) as trace:
            self.assertRaises(BufferError, data.clear)
            part = trace.frame(0).data
        self.assertRaises(BufferError, data.clear)
        self.assertEqual(part[0], ord('R'))
        part.release()
        data.clear()

    def test_a_found_frame_holds_until_it_is_closed(self):
        """With it the parts that it handed out; they end by themselves."""
        data = bytearray(FILE)
        with find_frame(data, 0) as frame:
            self.assertRaises(BufferError, data.clear)
            part = frame.registers
        for ask in (lambda: frame.data, lambda: frame.blocks, lambda: frame.registers, lambda: frame.memory(16)):
            self.assertRaises(ValueError, ask)
        self.assertEqual((frame.number, frame.place, frame.heads), (0, 19, 1))
        self.assertRaises(BufferError, data.clear)
        self.assertEqual(bytes(part), b'abcd')
        part.release()
        data.clear()

    def test_a_found_frame_that_is_let_go_holds_nothing(self):
        data = mapped(FILE)
        self.assertEqual(find_frame(data, 0).tracepoint, 1)
        data.close()

    def test_a_found_frame_s_map_can_be_closed_after(self):
        data = mapped(FILE)
        frame = find_frame(data, 0)
        self.assertEqual([len(frame.blocks), frame.description.register_size, len(frame.description.lines)], [2, 4, 1])
        self.assertRaises(BufferError, data.close)
        frame.close()
        data.close()

    def test_a_map_can_be_closed_after(self):
        for make in (Trace, lambda data: Pair(data, data)):
            data = mapped(FILE)
            with make(data) as made:
                self.assertRaises(BufferError, data.close)
                made.frame(0)
            data.close()
        data = mapped(dat())
        with TraceDat(data) as header:
            self.assertEqual(header.cpu_count, 0)
        data.close()

    def test_a_map_can_be_closed_after_a_refusal(self):
        data = mapped(b'no trace')
        for call in (Trace, TraceDat, lambda file: Pair(file, file), lambda file: cut(file, EVERY),
                     lambda file: join(file, file), find_fault, lambda file: find_frame(file, 0)):
            try:
                call(data)
            except Refused as refused:
                kept = refused
            self.assertIsNotNone(kept.__traceback__)
        data.close()

    def test_the_callers_view_may_go(self):
        view = memoryview(bytearray(FILE))
        trace = Trace(view)
        view.release()
        self.assertEqual(bytes(trace.frame(0).registers), b'abcd')


class Outputs(Case):
    def test_rest_unchanged(self):
        output = bytearray(b'\xa5' * (len(FILE) + 3))
        self.assertEqual(cut_into(output, FILE, EVERY), len(FILE))
        self.assertEqual(output, FILE + b'\xa5' * 3)
        output = mapped(b'\xa5' * (len(FILE) + 3), mmap.ACCESS_WRITE)
        self.assertEqual(join_into(output, FILE, FILE[:13]), len(FILE))
        self.assertEqual(output[:], FILE + b'\xa5' * 3)

    def test_exactly_fitting(self):
        output = bytearray(len(FILE))
        self.assertEqual(cut_into(output, FILE, EVERY), len(FILE))
        self.assertEqual(output, FILE)

    def test_read_only_output(self):
        for output in (bytes(100), mapped(bytes(100))):
            self.assertRaises(BufferError, cut_into, output, FILE, EVERY)
            self.assertRaises(BufferError, join_into, output, FILE, FILE)

    def test_output_over_a_file(self):
        data = bytearray(FILE + bytes(100))
        file, beyond = memoryview(data)[:len(FILE)], memoryview(data)[len(FILE):]
        for output in (data, memoryview(data)[len(FILE) - 1:], memoryview(data)[:1]):
            self.assertRaises(ValueError, cut_into, output, file, EVERY)
            self.assertRaises(ValueError, join_into, output, FILE, file)
        self.assertEqual(cut_into(beyond, file, EVERY), len(FILE))


if __name__ == '__main__':
    unittest.main()
