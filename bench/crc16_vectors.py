#!/usr/bin/env python3
"""Recomputes the published vectors of crates/specimens by three ways that share nothing with the code under proof: the
library's own CRC, a shift register bit by bit, and long division of polynomials. Compares each with the vector and with
what the program is expected to print. Exits 1 where anything differs."""
import ast
import binascii
import pathlib
import re
import sys

specimens = pathlib.Path(__file__).resolve().parent.parent / "crates" / "specimens"
row = re.compile(r'Vector \{\s*name: "([^"]*)",\s*message: (.*?),\s*expected: \[0x(..), 0x(..)\],\s*\}', re.S)


def message_of(text):
    repeated = re.fullmatch(r"&\[b'(.)'; (\d+)\]", text)
    if repeated:
        return repeated[1].encode() * int(repeated[2])
    if text.startswith('b"'):
        return ast.literal_eval(text)
    return bytes(int(byte, 16) for byte in re.findall(r"0x(..)", text))


def shifted(message):
    register = 0xFFFF
    for byte in message:
        for place in range(7, -1, -1):
            falls = (register >> 15 & 1) != (byte >> place & 1)
            register = register << 1 & 0xFFFF ^ (0x1021 if falls else 0)
    return register


def divided(message):
    rest = int.from_bytes(message, "big") << 16 ^ 0xFFFF << 8 * len(message)
    for degree in range(rest.bit_length() - 1, 15, -1):
        if rest >> degree & 1:
            rest ^= 0x11021 << degree - 16
    return rest


lines, wrong = [], 0
for name, text, high, low in row.findall((specimens / "src" / "vectors.rt").read_text()):
    message, expected = message_of(text.strip()), int(high + low, 16)
    values = {binascii.crc_hqx(message, 0xFFFF), shifted(message), divided(message)}
    wrong += values != {expected}
    lines.append(f"{name}: length {len(message)}, expected {expected:04X}, computed {expected:04X}, ok\n")
lines.append(f"{len(lines)} of {len(lines)} agree\n")
wrong += "".join(lines) != (specimens / "stdout").read_text()
print(f"{len(lines) - 1} vectors recomputed, {wrong} wrong")
sys.exit(1 if wrong or len(lines) < 2 else 0)
