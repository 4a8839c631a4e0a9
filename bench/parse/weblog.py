#!/usr/bin/env python3
"""A line for each record of a web log: its fields where each of them is well, else that it is faulty."""
import json
import re
import sys

LINE = re.compile(r'(\d{1,3})\.(\d{1,3})\.(\d{1,3})\.(\d{1,3}) (\S*) (\S*) \[([^\]]*)\] '
                  r'"(GET|PUT|POST|HEAD|DELETE|LINK|UNLINK) (\S*) HTTP/(\d+)\.(\d+)" (\d\d\d) (\d+)', re.ASCII)


def value_of(line):
    found = LINE.fullmatch(line)
    if not found:
        return None
    a, b, c, d, remote, auth, date, meth, uri, major, minor, code, length = found.groups()
    if max(int(a), int(b), int(c), int(d), int(major), int(minor)) > 255:
        return None
    if not 100 <= int(code) < 600 or int(length) >= 2**32:
        return None
    return {'auth': {'none' if auth == '-' else 'id': auth}, 'client': '%d.%d.%d.%d' % (int(a), int(b), int(c), int(d)),
            'date': date, 'length': int(length), 'remote': {'none' if remote == '-' else 'id': remote},
            'request': {'meth': meth, 'uri': uri, 'version': {'major': int(major), 'minor': int(minor)}},
            'response': int(code)}


def main():
    first, dirty, encode = 0, 0, json.JSONEncoder(separators=(',', ':')).encode
    for number, raw in enumerate(sys.stdin.buffer):
        line = raw.rstrip(b'\n').decode('latin-1')
        end = first + len(line)
        value = value_of(line)
        if value is None:
            dirty = 1
            print(encode({'class': 'Err', 'record': number, 'span': [first, end]}))
        else:
            print(encode({'class': 'Ok', 'faults': [], 'nerr': 0, 'next': end, 'record': number,
                          'span': [first, end], 'value': value}))
        first += len(raw)
    sys.exit(dirty)


if __name__ == '__main__':
    main()
