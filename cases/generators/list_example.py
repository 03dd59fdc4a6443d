#!/usr/bin/env python3
"""list_example.py CRATE: writes CRATE/stdin and CRATE/stdout of the program list from document 01's example of a listing.

The recipe is the document's six statements, the output its two lines."""
import os
import sys

crate = sys.argv[1]
U16, U32 = 1, 2
fields = bytes([U16, 128 + 16])
variables = bytes([U16, U16, U32, U32, U32])
trays = b""
statements = [
    (7, 0, 0, 0),  # read v0 f0
    (6, 2, 0, 0),  # v2 = v0 to u32
    (7, 1, 0, 0),  # read v1 f0
    (6, 3, 1, 0),  # v3 = v1 to u32
    (4, 4, 2, 3),  # v4 = v2 × v3
    (10, 4, 0, 0),  # site v4
]
sections = [fields, variables, trays, b"".join(bytes(s) + bytes(4) for s in statements)]
table, offset = b"", 32
for section in sections:
    table += offset.to_bytes(4, "little") + len(section).to_bytes(4, "little")
    offset += len(section)
with open(os.path.join(crate, "stdin"), "wb") as out:
    out.write(table + b"".join(sections))
with open(os.path.join(crate, "stdout"), "w") as out:
    out.write("conjuncts 1\n0: f0<1>:u16 to:u32 f0<2>:u16 to:u32 mul:u32\n")
