#!/usr/bin/env python3
"""Makes a scenario for `register play`, with what each line should be answered.

The records and their seals are made here, by hand and by Python's hmac, and not by the code under test.
usage: tools/scenario.py script | tools/scenario.py answers
The gate runs the script as the end of crates/register_play/stdin, and compares with crates/register_play/stdout.
"""
import hashlib
import hmac
import struct
import sys

REQUEST, GRANT, QUESTION, ANSWER, READ_ANSWER, START, SHOW_GRANT, SHOW_CERT = range(1, 9)
lines = []


def record(kind, signer=0, client=0, number=0, round=0, place=0, op=b"", answer=0, nonce=0):
    says = bytes([kind, signer, client, 0]) + struct.pack(">III", number, round, place)
    says += op.ljust(16, b"\0") + struct.pack(">QQ", answer, nonce)
    if kind in (SHOW_GRANT, SHOW_CERT):
        return says + bytes(32)
    key = bytes([(32 if kind in (REQUEST, QUESTION) else 16) + signer]) * 32
    return says + hmac.new(key, says, hashlib.sha256).digest()


def unsealed(raw):
    return raw[:48] + bytes(32)


def line(text, *answers):
    lines.append((text, answers))


def call(site, message, reply):
    line(f"call {site} {message.hex() or '-'}", f"call {site} {reply}")


def ok(raw=b""):
    return "ok " + (raw.hex() or "-")


ISSUE = bytes([1, 5, 1])        # title 5 to client 1
TRANSFER = bytes([2, 5, 2])     # title 5 to client 2
OTHER = bytes([1, 6, 3])        # title 6 to client 3


def request(client, number, op):
    return record(REQUEST, client, client, number, op=op)


def grant(site, client, number, round, place, op):
    return record(GRANT, site, client, number, round, place, op)


def answer(site, client, number, round, place, op, a):
    return record(ANSWER, site, client, number, round, place, op, a)


def certificate(sites, *claim):
    return b"".join(grant(s, *claim) for s in sites)


def whole_write():
    line("# one write, raw: the office, the sites, the office again")
    line("pool 1 titles", "pool 1 titles sites 4 quorum 3")
    line("office 0", "office 0 ok")
    req = request(0, 1, ISSUE)
    line(f"judge 0", "judge 0 WAIT")
    line(f"begin 0 {ISSUE.ljust(16, bytes(1)).hex()}", f"begin 0 {ok(req)}")
    line(f"begin 0 {ISSUE.ljust(16, bytes(1)).hex()}", "begin 0 refused 14 0 3 BUSY")
    for s in range(4):
        call(s, req, ok(grant(s, 0, 1, 0, 1, ISSUE)))
    for s in (3, 1):
        line(f"take 0 {grant(s, 0, 1, 0, 1, ISSUE).hex()}", "take 0 ok")
    line("judge 0", "judge 0 WAIT")
    line(f"take 0 {grant(2, 0, 1, 0, 1, ISSUE).hex()}", "take 0 ok")
    cert = certificate((1, 2, 3), 0, 1, 0, 1, ISSUE)
    line("judge 0", f"judge 0 CERTIFY {cert.hex()}")
    line("close 0", "close 0 refused 11 0 3 WAIT")
    for s in range(4):
        call(s, cert, ok(answer(s, 0, 1, 0, 1, ISSUE, 0)))
    for s in range(3):
        line(f"take 0 {answer(s, 0, 1, 0, 1, ISSUE, 0).hex()}", "take 0 ok")
    line("judge 0", "judge 0 DONE 0")
    line("close 0", "close 0 ok 0")
    line("close 0", "close 0 refused 21 0 3 NONE")
    line("giveup 0", "giveup 0 refused 21 0 3 NONE")
    call(0, record(SHOW_CERT), ok(cert))
    call(1, record(SHOW_GRANT, place=2), "refused 21 0 3 NONE")
    op = ISSUE.ljust(16, bytes(1)).hex()
    line("state 0", f"state 0 stage=OPEN round=0 place=1 current=0:1:0:1:{op} grant=none waiting=none "
         f"done=0:1:0:1:{op}:0 target=none settlement=none")


def reading():
    line("# a reading, raw")
    look = bytes([1, 5])
    ask = record(QUESTION, 2, 2, op=look, nonce=9)
    line("office 2", "office 2 ok")
    line("judgeread 2", "judgeread 2 WAIT")
    line(f"query 2 {look.ljust(16, bytes(1)).hex()} {9:016x}", f"query 2 {ok(ask)}")
    for s in (2, 0, 3):
        says = record(READ_ANSWER, s, 2, round=0, place=1, op=look, answer=1, nonce=9)
        call(s, ask, ok(says))
        line(f"take 2 {says.hex()}", "take 2 ok")
    line("judgeread 2", "judgeread 2 DONE 1")
    stale = record(READ_ANSWER, 1, 2, round=0, place=1, op=look, answer=1, nonce=8)
    line(f"take 2 {stale.hex()}", "take 2 refused 5 0 2 MIXED")


def other_verdicts():
    line("# BACK, CLASH and CATCH, and what an office refuses")
    line("office 1 6", "office 1 ok")
    line(f"begin 1 {TRANSFER.ljust(16, bytes(1)).hex()}", f"begin 1 {ok(request(1, 7, TRANSFER))}")
    for s in range(3):
        line(f"take 1 {grant(s, 3, 4, 0, 2, OTHER).hex()}", "take 1 ok")
    line("judge 1", f"judge 1 BACK {certificate((0, 1, 2), 3, 4, 0, 2, OTHER).hex()}")
    line(f"take 1 {grant(0, 1, 7, 0, 3, TRANSFER).hex()}", "take 1 ok")
    line(f"take 1 {grant(1, 1, 7, 0, 3, TRANSFER).hex()}", "take 1 ok")
    line("judge 1", "judge 1 CATCH 0")
    line(f"take 1 {grant(2, 3, 5, 0, 3, OTHER).hex()}", "take 1 ok")
    both = grant(0, 1, 7, 0, 3, TRANSFER) + grant(1, 1, 7, 0, 3, TRANSFER) + grant(2, 3, 5, 0, 3, OTHER)
    line("judge 1", f"judge 1 CLASH {both.hex()}")
    line(f"take 1 {unsealed(grant(3, 1, 7, 0, 3, TRANSFER)).hex()}", "take 1 refused 8 0 2 UNVOUCHED")
    line(f"take 1 {answer(3, 1, 8, 0, 3, TRANSFER, 0).hex()}", "take 1 refused 5 0 2 MIXED")
    line(f"take 1 {grant(4, 1, 7, 0, 3, TRANSFER).hex()}", "take 1 refused 4 0 1 FIELD")
    line(f"take 1 {request(1, 7, TRANSFER).hex()}", "take 1 refused 3 0 1 KIND")
    line("take 1 00", "take 1 refused 2 0 1 LENGTH")
    line("giveup 1", "giveup 1 ok")
    line(f"take 1 {grant(3, 1, 7, 0, 3, TRANSFER).hex()}", "take 1 refused 21 0 3 NONE")
    line("office 3 4294967295", "office 3 ok")
    line(f"begin 3 {OTHER.ljust(16, bytes(1)).hex()}", "begin 3 refused 19 0 3 USED-UP")


def seals_and_buffers():
    line("# seals filled in, and buffers that do not fit")
    req = request(4, 1, OTHER)
    line(f"seal {unsealed(req).hex()}", f"seal {req.hex()}")
    line(f"call 0 {req.hex()} 879", "call 0 refused 1 0 1 SHORT")
    line(f"call 0 {req.hex()} 880 15", "call 0 refused 1 0 1 SHORT")
    line(f"call 0 {req.hex()} 900 16", f"call 0 {ok(grant(0, 4, 1, 0, 2, OTHER))}")
    call(0, b"", "refused 2 0 1 LENGTH")
    op = OTHER.ljust(16, bytes(1)).hex()
    current = ISSUE.ljust(16, bytes(1)).hex()
    line("state 0", f"state 0 stage=OPEN round=0 place=1 current=0:1:0:1:{current} grant=4:1:0:2:{op} waiting=4:1:{op} "
         f"done=0:1:0:1:{current}:0 target=none settlement=none")


def clash_and_round():
    line("# the round: STARTs at 1, no site further, client 4's request is settled; a site at place 0 is PULLING")
    line("pool 1 titles", "pool 1 titles sites 4 quorum 3")
    cert = certificate((0, 1, 2), 0, 1, 0, 1, ISSUE)
    for s in (0, 1):
        call(s, cert, ok(answer(s, 0, 1, 0, 1, ISSUE, 0)))
    starts = record(START, 0, place=1) + record(START, 1, place=1) + record(START, 3, place=0)
    settle = starts + cert + request(4, 1, OTHER)
    call(0, settle, "ok -")
    call(2, settle, "ok -")
    issue, other = ISSUE.ljust(16, bytes(1)).hex(), OTHER.ljust(16, bytes(1)).hex()
    mark = "16:1:1:2:" + "00" * 16
    line("state 0", f"state 0 stage=SETTLING round=1 place=1 current=0:1:0:1:{issue} grant=none waiting=none "
         f"done=0:1:0:1:{issue}:0 target=none settlement={mark},4:1:1:3:{other}")
    line("state 2", "state 2 stage=PULLING round=1 place=0 current=none grant=none waiting=none done=none target=1 settlement=none")
    call(0, record(SHOW_GRANT, place=2), ok(grant(0, 16, 1, 1, 2, b"")))
    call(0, record(SHOW_GRANT, place=3), ok(grant(0, 4, 1, 1, 3, OTHER)))
    call(0, record(SHOW_GRANT, place=4), "refused 21 0 3 NONE")
    call(2, record(SHOW_GRANT, place=2), "refused 21 0 3 NONE")
    call(2, cert, ok(answer(2, 0, 1, 0, 1, ISSUE, 0)))
    for place, claim in ((2, (16, 1, 1, 2, b"")), (3, (4, 1, 1, 3, OTHER))):
        for s in (0, 2):
            call(s, certificate((0, 1, 2), *claim), ok(answer(s, *claim, 0 if place == 2 else 2)))
    done = f"done=0:1:0:1:{issue}:0,4:1:1:3:{other}:2"
    for s in (0, 2):
        line(f"state {s}", f"state {s} stage=OPEN round=1 place=3 current=4:1:1:3:{other} grant=none waiting=none "
             f"{done} target=none settlement={mark},4:1:1:3:{other}")
    call(1, settle[:240] + request(4, 1, OTHER), "refused 9 0 2 LOW")
    call(0, settle, "refused 16 0 3 STALE")


def unreadable():
    line("# lines that cannot be read or done")
    for text, why in (
            ("pool 6 titles", None), ("pool 1 bills", "read: titles or slots was expected"),
            ("pool x titles", "read: a number is missing, is none, or is too large"),
            ("call 16 -", "read: a site's number from 0 to 15 was expected"),
            ("call 4 -", "done: the pool has no such site"),
            ("call 0 0", "read: bytes in hexadecimal, or - for none, were expected"),
            ("call 0", "read: bytes in hexadecimal, or - for none, were expected"),
            ("call 0 - 1000001", "read: a number is missing, is none, or is too large"),
            ("call 0 - 880 16 1", "read: there are words after the end of the step"),
            ("state", "read: a site's number from 0 to 15 was expected"),
            ("state 9", "done: the pool has no such site"),
            ("begin 5 00", "read: an operation is 16 bytes, written as 32 hexadecimal digits"),
            ("begin 5 " + "00" * 16, "done: there is no such office yet"),
            ("judge 16", "read: a client's number from 0 to 15 was expected"),
            ("query 5 " + "00" * 16 + " 00", "read: a nonce is 8 bytes, written as 16 hexadecimal digits"),
            ("again 0", "done: there is no such office yet"),
            ("down 4", "done: the pool has no such site"),
            ("write 0 sell 5", "read: the words for titles are issue, transfer, surrender and look, for slots move and look"),
            ("compare now", "read: there are words after the end of the step")):
        line(text, "pool 6 titles refused 4 0 3 FIELD" if why is None else f"line {{}} cannot be {why}")


def main():
    whole_write()
    reading()
    other_verdicts()
    seals_and_buffers()
    clash_and_round()
    unreadable()
    first = int(sys.argv[2]) if len(sys.argv) > 2 else 1
    for number, (text, answers) in enumerate(lines, first):
        if sys.argv[1] == "script":
            print(text)
        for reply in answers if sys.argv[1] == "answers" else ():
            print(reply.format(number) if "{}" in reply else reply)


main()
