"""What v0 of every frame costs in Python: 64 MiB of frames as the board has them, the least CPU time of some rounds.

    PYTHONPATH=bindings/python python3 tests/speed/v0.py [ROUNDS]"""
import sys
import time

from tufakpeni import Trace

LONGEST = 64 << 20
OPENING = b'\x7fTRACE0\nR 308\n\n'
REGISTERS = bytes(number % 256 for number in range(776))
DATA = b'R' + REGISTERS + b'V\x01\0\0\0' + bytes(8)
FRAME = b'\x01\0' + len(DATA).to_bytes(4, 'little') + DATA
V0 = slice(264, 280)


def timed(call):
    start = time.process_time()
    result = call()
    return time.process_time() - start, result


def main(rounds):
    file = OPENING + FRAME * ((LONGEST - len(OPENING)) // len(FRAME))
    times = []
    for _ in range(rounds):
        opening, trace = timed(lambda: Trace(file))
        reading, found = timed(lambda: [bytes(frame.registers[V0]) for frame in trace])
        if set(found) != {REGISTERS[V0]} or len(found) != len(trace):
            sys.exit('another v0 than was written')
        times.append((opening + reading, opening, reading))
    both, opening, reading = min(times)
    print(f'{len(found)} frames: {both:.3f} s, of it opening {opening:.3f} and v0 {reading:.3f}; the least of {rounds} rounds')


main(int(sys.argv[1]) if len(sys.argv) > 1 else 11)
