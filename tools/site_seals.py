#!/usr/bin/env python3
"""Prints the seals that crates/site_vectors/src/sealed.rt uses: made by Python's hmac alone. Site i's key is 32 bytes of value
16 + i, client i's 32 bytes of value 32 + i."""
import hashlib
import hmac
import struct

TRANSFER = bytes([2, 5, 3] + [0] * 13)


def statement(kind, signer, client, number, round_, place, operation):
    return bytes([kind, signer, client, 0]) + struct.pack(">III", number, round_, place) + operation + bytes(16)


def show(name, key, signed):
    seal = hmac.new(bytes([key] * 32), signed, hashlib.sha256).digest()
    text = "".join("\\x%02x" % b for b in seal)
    print(f'const {name}: &[u8; 32] =\n    b"{text}";\n')


show("REQUEST_SEAL", 32 + 1, statement(1, 1, 1, 1, 0, 0, TRANSFER))
for site in (2, 0, 3):
    show(f"GRANT_SEAL_{site}", 16 + site, statement(2, site, 1, 1, 0, 1, TRANSFER))
