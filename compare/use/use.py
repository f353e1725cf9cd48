"""The machine and the checker from Python: one step with its record, the checker's answer, and its answer to a changed record.

    python3 use.py LIBRARY      the shared library: see compare/run-smoke
"""

import ctypes
import sys

library = ctypes.CDLL(sys.argv[1])
library.rocchivanda_check.restype = ctypes.c_uint64
library.rocchivanda_step_recorded.restype = ctypes.c_uint64


def lent(buffer):
    """A slice: a pointer, and how many entries it has."""
    return (ctypes.c_uint8 * len(buffer)).from_buffer(buffer), ctypes.c_size_t(len(buffer))


state, pages, record = bytearray(360), bytearray(4104), bytearray(752)
hint, output, index, data = bytearray(1), bytearray(1), bytearray(1), bytearray(1)
answer = (ctypes.c_uint64 * 4)(1)  # one page record is used: page 0
pages[8:12] = bytes.fromhex("24080007")  # at address 0: addiu r8, r0, 7
state[271] = 4  # next_pc is 4
state[354] = 1  # rules 1

slices = [part for buffer in (state, pages, hint, output, index, data, record) for part in lent(buffer)]
kind = library.rocchivanda_step_recorded(*slices, answer, ctypes.c_size_t(4))
print(f"kind {kind}, register 8 is {state[71]}")
print(f"its record: {library.rocchivanda_check(*lent(record))}")
record[360 + 71] ^= 1  # register 8 of the new state
print(f"one bit changed: {library.rocchivanda_check(*lent(record))}")
