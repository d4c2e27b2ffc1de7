"""The refusals: document 01's table and what document 02 adds to it, each number with its name and its sentence."""
import contextlib
import enum


class Refusal(enum.IntEnum):
    """A row of the table: the number is its value, `reason` its sentence."""

    def __new__(cls, number, reason):
        member = int.__new__(cls, number)
        member._value_ = number
        member.reason = reason
        return member

    TOO_LONG = 1, "a file, or a join's result, is longer than 67,108,864 bytes"
    BAD_ARGUMENT = 2, 'an argument is wrong: byte order not 0 or 1; base not 10 or 16; a range with low above high; more than 8 ranges'
    BAD_HEAD = 3, 'the head differs or is cut short'
    NO_EMPTY_LINE = 4, 'the description has no empty line'
    BAD_LINE = 5, 'an ended `R ` line breaks its form in the chosen base, or a second `R ` or `status ` line'
    SHORT_HEAD = 6, '1 to 5 bytes remain where a frame head should start'
    DATA_PAST_FILE = 7, "a frame's data runs past the file"
    BAD_LETTER = 8, 'a block letter other than R, M, V'
    BLOCK_PAST_DATA = 9, "a block runs past its frame's data"
    NO_REGISTER_SIZE = 10, 'an `R` block where no R line was given'
    NO_ROOM = 11, 'the result is longer than the output, or there are more frames than records'
    NOT_FOUND = 12, 'no such line, frame, block, CPU; no covering block; no such register block or variable'
    OPENINGS_DIFFER = 13, 'the openings to be joined differ'
    FIELD_PAST_FILE = 14, 'a trace.dat field or named piece runs past the file'
    BAD_CONSTANT = 15, 'a trace.dat fixed string, flag, long size or page size is wrong'
    BAD_RANGE = 16, "CPU count above 1,024; a CPU range misaligned, before the header's end or past the file"
    RANGES_OVERLAP = 17, 'two CPU ranges overlap'
    BAD_MARK = 18, 'a bad end mark'
    SECOND_REGISTERS = 24, 'a second `R` block in a frame'


# What the blocks of a frame may be refused with.
OF_BLOCKS = (Refusal.BAD_LETTER, Refusal.BLOCK_PAST_DATA, Refusal.NO_REGISTER_SIZE, Refusal.SECOND_REGISTERS)


class Refused(Exception):
    """A call was refused: `number` as in the table, `reason` in words; `where` says in which frame, in words too, and
    is empty where that is not known."""

    def __init__(self, number, where=''):
        super().__init__(number, where)
        self.number = Refusal(number)
        self.reason = self.number.reason
        self.where = where

    def __str__(self):
        place = self.where and f' {self.where}'
        return f'refused {self.number:d}{place}: {self.reason}'


@contextlib.contextmanager
def absence_passed():
    """Ends its block without an error where what was asked for is not there."""
    try:
        yield
    except Refused as refused:
        if refused.number != Refusal.NOT_FOUND:
            raise
