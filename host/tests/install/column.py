"""A column there and back, a refusal and the version, over ctypes: column.py LIBRARY HEADER."""

import ctypes
import re
import sys
from ctypes import POINTER, c_uint32, c_uint64


class WriteReply(ctypes.Structure):
    _fields_ = [("number", c_uint32), ("position", c_uint64)]


class U32Reply(ctypes.Structure):
    _fields_ = [("number", c_uint32), ("position", c_uint64), ("value", c_uint32)]


library = ctypes.CDLL(sys.argv[1])
for name in ["tari_interpolate", "tari_evaluate"]:
    function = getattr(library, name)
    function.restype = WriteReply
    function.argtypes = [c_uint32, POINTER(c_uint32), c_uint64, POINTER(c_uint32), c_uint64]
library.tari_version.restype = U32Reply
library.tari_version.argtypes = []


def transform(function, column):
    scratch = (c_uint32 * len(column))()
    reply = function(len(column).bit_length() - 1, column, len(column), scratch, len(scratch))
    return reply.number, reply.position


balances = [1250, 0, 730, 2020]
column = (c_uint32 * 4)(*balances)
assert transform(library.tari_interpolate, column) == (0, 0)
assert 4 * column[0] == sum(balances), list(column)
assert transform(library.tari_evaluate, column) == (0, 0)
assert list(column) == balances, list(column)

column[1] = 2**31 - 1
assert transform(library.tari_evaluate, column) == (1, 1)

with open(sys.argv[2], encoding="ascii") as header:
    declared = re.search(r"^#define TARI_VERSION (\d+)$", header.read(), re.MULTILINE)
assert library.tari_version().value == int(declared[1])
print("there and back")
