#!/usr/bin/env python3
"""Writes nops.elf: four instructions that do nothing, in one segment that may be read and executed, at 80000000."""

import struct
from pathlib import Path

BASE = 0x80000000
NOP = 0x00000013  # addi x0,x0,0

code = struct.pack("<4I", NOP, NOP, NOP, NOP)
# 32 bits, little-endian, version 1; then: an executable, for RISC-V, version 1, entry, where the program headers stand,
# no section headers, no flags, the sizes of both kinds of header, one program header, and no sections.
ident = b"\x7fELF" + bytes([1, 1, 1]) + bytes(9)
header = ident + struct.pack("<2H5I6H", 2, 243, 1, BASE, 52, 0, 0, 52, 32, 1, 0, 0, 0)
# Loadable, from byte 84 of the file, to this address, so many bytes in the file and in memory, flags R and X, alignment.
segment = struct.pack("<8I", 1, 84, BASE, BASE, len(code), len(code), 5, 1)

Path(__file__).with_name("nops.elf").write_bytes(header + segment + code)
