"""Rules by which every argument and every answer is passed on RISC-V as the library, made for x86-64, has it (docs/DECISIONS.md, "The C interface").

    python3 tests/interface/convention.py

prints what breaks them in the header; nothing is right."""
import re
import sys

import header

# Whole numbers of at most 8 bytes: nothing here is a floating number, and nothing is aligned to 16.
NUMBERS = {'uint8_t': 1, 'uint16_t': 2, 'uint32_t': 4, 'uint64_t': 8, 'int64_t': 8, 'size_t': 8}
# RISC-V's caller takes a narrower number to fill its register; of these every bit is said.
ANSWERS = {'uint64_t', 'int64_t', 'size_t', 'bool'}
ARRAY = re.compile(r'(\w+)\[(\d+)\]')
POINTER = re.compile(r'(?:const )?(\w+) \*')
WORD, REGISTERS, IN_REGISTERS = 8, 6, 16


def words_of(size):
    return -(-size // WORD)


class Sizes:
    """Sizes and alignments of a header's kinds; of an unknown kind there is none."""

    def __init__(self, structs):
        self.known = {number: (size, size) for number, size in NUMBERS.items()}
        for struct, fields in structs.items():
            kinds = [self.of(kind) for _, kind in fields]
            if None not in kinds:
                self.known[struct] = laid_out(kinds)

    def of(self, kind):
        array = ARRAY.fullmatch(kind)
        if not array:
            return self.known.get(kind)
        each = self.known.get(array[1])
        return each and (each[0] * int(array[2]), each[1])


def laid_out(kinds):
    """Fields one behind the other, each at a multiple of its alignment."""
    end, most = 0, 1
    for size, alignment in kinds:
        end = -(-end // alignment) * alignment + size
        most = max(most, alignment)
    return -(-end // most) * most, most


def unknown_kinds(read, sizes):
    """Fields and parameters of other kinds than whole numbers, structs of these, and parameters that lend them."""
    for struct, fields in read.structs.items():
        yield from (f'{struct}.{name} is a {kind}' for name, kind in fields if not sizes.of(kind))
    for call, (_, parameters) in read.calls.items():
        for name, kind in parameters:
            lent = POINTER.fullmatch(kind)
            if not sizes.of(lent[1] if lent else kind):
                yield f'{call} takes {name}, a {kind}'


def narrow_answers(read):
    for call, (answer, _) in read.calls.items():
        if answer not in ANSWERS and answer not in read.structs:
            yield f'{call} answers a bare {answer}'


def late_structs(read, sizes):
    """Structs of at most 16 bytes go in registers, on x86-64 only where all of it finds room: behind that RISC-V still has registers, and they part."""
    for call, (answer, parameters) in read.calls.items():
        # The place of a longer answer is the first argument.
        used = int(answer in read.structs and sizes.of(answer)[0] > IN_REGISTERS)
        for name, kind in parameters:
            size = sizes.of(kind)[0] if kind in read.structs else WORD
            if size <= IN_REGISTERS:
                used += words_of(size)
                if kind in read.structs and used > REGISTERS:
                    yield f'{call} takes {name}, a struct of {size} bytes, too late'


def broken(read):
    sizes = Sizes(read.structs)
    found = [*unknown_kinds(read, sizes), *narrow_answers(read)]
    return found or list(late_structs(read, sizes))


if __name__ == '__main__':
    sys.exit('\n'.join(broken(header.read())) or None)
