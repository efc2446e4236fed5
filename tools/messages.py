#!/usr/bin/env python3
"""Prints a script for `register explain`; with the word `expect`, the first line that explains each message.

Both are made here alone, from the layout and the rules in docs/, and not by the program that they are compared with.
"""
import struct
import sys

ISSUE = bytes([2, 5, 3] + [0] * 13)


def record(kind, signer, client, number, round_, place, operation=bytes(16), answer=0, nonce=0, spare=0):
    return bytes([kind, signer, client, spare]) + struct.pack(">III", number, round_, place) + operation + struct.pack(">QQ", answer, nonce) + bytes(32)


def request(client, number=1):
    return record(1, client, client, number, 0, 0, ISSUE)


def grant(site, client=1, number=1, round_=0, place=1):
    return record(2, site, client, number, round_, place, ISSUE)


def start(site, round_=0, place=1):
    return record(6, site, 0, 0, round_, place)


SHORT_ROUND = [start(0, 0, 0), start(1, 0, 0), start(2, 0, 0)]
STARTS = [start(0), start(1), start(2)]
LONGEST = [start(i) for i in range(11)] + [grant(i) for i in range(11)] + [request(i) for i in range(16)]

ROWS = [
    ("one request", 1, [request(1)], "WRITE-1"),
    ("one question", 1, [record(3, 1, 1, 0, 0, 0, ISSUE, 0, 9)], "READ"),
    ("a quorum of grants", 1, [grant(0), grant(1), grant(3)], "WRITE-2"),
    ("the same at f = 2", 2, [grant(i) for i in range(5)], "WRITE-2"),
    ("the same at f = 3", 3, [grant(i) for i in range(7)], "WRITE-2"),
    ("the same at f = 4", 4, [grant(i) for i in range(9)], "WRITE-2"),
    ("the same at f = 5", 5, [grant(i) for i in range(5, 16)], "WRITE-2"),
    ("a clash", 1, [grant(0), grant(1, 2), grant(3), request(1)], "RESOLVE"),
    ("a round without grants", 1, SHORT_ROUND, "ROUND"),
    ("a round with grants and requests", 1, [start(0), start(1), start(2, 0, 0), grant(0), grant(1), grant(2), request(2), request(9)], "ROUND"),
    ("the longest round, 38 records", 5, LONGEST, "ROUND"),
    ("a show-grant", 1, [record(7, 0, 0, 0, 0, 4)], "SHOW-GRANT"),
    ("a show-cert", 1, [record(8, 0, 0, 0, 0, 0)], "SHOW-CERT"),
    ("no record", 1, [], "refused 2 LENGTH, index 0, layer 1"),
    ("one byte short", 1, [request(1)[:-1]], "refused 2 LENGTH, index 0, layer 1"),
    ("one byte long", 1, [request(1), b"\0"], "refused 2 LENGTH, index 0, layer 1"),
    ("39 records", 5, LONGEST + [request(15)], "refused 2 LENGTH, index 0, layer 1"),
    ("a quorum less one", 1, [grant(0), grant(1)], "refused 3 KIND, index 0, layer 1"),
    ("a quorum of f = 1 at f = 2", 2, [grant(0), grant(1), grant(3)], "refused 3 KIND, index 0, layer 1"),
    ("a lone grant", 1, [grant(0)], "refused 3 KIND, index 0, layer 1"),
    ("an unknown kind", 1, [record(9, 0, 0, 0, 0, 0)], "refused 3 KIND, index 0, layer 1"),
    ("a signer above the pool", 1, [grant(0), grant(4), grant(3)], "refused 4 FIELD, index 1, layer 1"),
    ("byte 3 set", 1, [record(1, 1, 1, 1, 0, 0, ISSUE, 0, 0, 1)], "refused 4 FIELD, index 0, layer 1"),
    ("another place", 1, [grant(0), grant(1), grant(3, 1, 1, 0, 2)], "refused 5 MIXED, index 2, layer 2"),
    ("another round", 1, [grant(0), grant(1, 1, 1, 1), grant(3)], "refused 5 MIXED, index 1, layer 2"),
    ("a clash in two rounds", 1, [grant(0), grant(1, 2, 1, 1), grant(3), request(1)], "refused 5 MIXED, index 1, layer 2"),
    ("starts of two rounds", 1, [start(0), start(1, 1), start(2)], "refused 5 MIXED, index 1, layer 2"),
    ("grants of another round than the starts", 1, STARTS + [grant(i, 1, 1, 1) for i in range(3)], "refused 5 MIXED, index 3, layer 2"),
    ("no clash", 1, [grant(0), grant(1), grant(3), request(1)], "refused 6 SAME, index 0, layer 2"),
    ("a signer again", 1, [grant(0), grant(1), grant(0)], "refused 7 TWICE, index 2, layer 2"),
    ("a signer again among the starts", 1, [start(0, 0, 0), start(0, 0, 0), start(2, 0, 0)], "refused 7 TWICE, index 1, layer 2"),
    ("a signer again among the grants of a round", 1, STARTS + [grant(0), grant(1), grant(1)], "refused 7 TWICE, index 5, layer 2"),
    ("a start above the target", 1, [start(0), start(1, 0, 2), start(2), grant(0), grant(1), grant(2)], "refused 9 LOW, index 1, layer 2"),
    ("a start above no target", 1, [start(0, 0, 0), start(1, 0, 0), start(2)], "refused 9 LOW, index 2, layer 2"),
    ("clients that fall", 1, SHORT_ROUND + [request(2), request(1)], "refused 10 ORDER, index 4, layer 2"),
    ("a client again", 1, SHORT_ROUND + [request(2), request(2)], "refused 10 ORDER, index 4, layer 2"),
]

for name, f, records, first in ROWS:
    if sys.argv[1:] == ["expect"]:
        print(first)
    else:
        print(f"# {name}: {first}")
        print(f, b"".join(records).hex() or "-")
