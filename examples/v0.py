# %% [markdown]
# # The mask register v0 in every frame
#
# The board's register block has 776 bytes: 33 general registers of 8, then v0 to v31 of 16. So v0 is bytes 264 to 279.
#
#     PYTHONPATH=bindings/python python3 examples/v0.py samples/masks.tf

# %%
import sys

from tufakpeni import Refused, Trace

BLOCK = 776
V0 = slice(264, 280)


# %%
def v0(frame):
    """v0 of a frame, as text."""
    if frame.registers_place is None:
        return 'no registers'
    registers = frame.registers
    if len(registers) != BLOCK:
        return f'a register block of {len(registers)} bytes'
    return registers[V0].hex(' ')


# %%
try:
    with open(sys.argv[1], 'rb') as file, Trace(file.read()) as trace:
        for frame in trace:
            print(f'frame {frame.number}, tracepoint {frame.tracepoint}: {v0(frame)}')
except Refused as refused:
    sys.exit(str(refused))
