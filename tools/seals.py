#!/usr/bin/env python3
"""Prints the table of sealed records that crates/vectors/src/seals.rt compares with: made by Python's hmac alone."""
import hashlib
import hmac
import struct


def statement(kind, signer, client, number, round_, place, operation, answer, nonce):
    return bytes([kind, signer, client, 0]) + struct.pack(">III", number, round_, place) + operation + struct.pack(">QQ", answer, nonce)


KEYS = [bytes([16] * 32), bytes(range(32)), bytes([255] * 32)]
ROWS = [
    statement(1, 0, 0, 1, 0, 0, bytes([1, 5, 1] + [0] * 13), 0, 0),
    statement(2, 3, 9, 7, 2, 11, bytes(range(16)), 0, 0),
    statement(3, 15, 15, 0, 0, 0, bytes([1, 63] + [0] * 14), 0, 2**64 - 1),
    statement(4, 15, 16, 2000000000, 2000000000, 2000000016, bytes(16), 0, 0),
    statement(5, 2, 1, 0, 0, 0, bytes([1, 3] + [0] * 14), 9999998, 1),
    statement(6, 1, 0, 0, 4, 3, bytes(16), 0, 0),
]
for i, row in enumerate(ROWS):
    key = KEYS[i % len(KEYS)]
    seal = hmac.new(key, row, hashlib.sha256).digest()
    print(f'    Sealed {{\n        key: "{key.hex()}",\n        statement: "{row.hex()}",\n        seal: "{seal.hex()}",\n    }},')
