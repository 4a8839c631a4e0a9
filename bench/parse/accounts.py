#!/usr/bin/env python3
"""A line for each account of a mainframe extract (EBCDIC, blocks of 35 bytes): its fields where each of them is
well, else that it is faulty."""
import json
import struct
import sys

KINDS = {'SAV': 'SAVINGS', 'CHK': 'CHECKING', 'LN ': 'LOAN'}


def value_of(block):
    number, kind, cents, branch, opened, holder = struct.unpack('>6s3siH8s12s', block)
    number, kind, opened, holder = (text.decode('cp037') for text in (number, kind, opened, holder))
    if kind not in KINDS or not 'A00000' <= number <= 'Z99999' or kind != 'LN ' and cents < 0 or not 1 <= branch <= 300:
        return None
    if not (opened.isascii() and opened.isdigit()) or not 19000101 <= int(opened) <= 20991231:
        return None
    return {'branch': branch, 'cents': cents, 'holder': holder, 'kind': KINDS[kind], 'number': number, 'opened': int(opened)}


def main():
    record, first, dirty, encode = 0, 0, 0, json.JSONEncoder(separators=(',', ':')).encode
    while len(block := sys.stdin.buffer.read(35)) == 35:
        value, end = value_of(block), first + 35
        if value is None:
            dirty = 1
            print(encode({'class': 'Err', 'record': record, 'span': [first, end]}))
        else:
            print(encode({'class': 'Ok', 'faults': [], 'nerr': 0, 'next': end, 'record': record,
                          'span': [first, end], 'value': value}))
        record, first = record + 1, end
    sys.exit(dirty)


if __name__ == '__main__':
    main()
