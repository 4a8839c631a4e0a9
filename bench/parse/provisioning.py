#!/usr/bin/env python3
"""A line for each provisioning order: its fields where each of them is well, else that it is faulty."""
import json
import sys


def number(word):
    return int(word) if word.isascii() and word.isdigit() and int(word) < 2**32 else None


def optional(word):
    return ('none', None) if word == '' else ('some', number(word))


def value_of(line, first):
    parts = line.split('|')
    if first:
        at = number(parts[1]) if len(parts) == 2 and parts[0] == '0' else None
        return None if at is None else {'tstamp': at}
    if len(parts) < 4:
        return None
    num, tn, zipcode, rest = number(parts[0]), optional(parts[1]), optional(parts[2]), parts[3:]
    if rest == ['']:
        rest = []
    if num is None or tn == ('some', None) or zipcode == ('some', None) or len(rest) % 2:
        return None
    times = [number(word) for word in rest[1::2]]
    if None in times or any(one > other for one, other in zip(times, times[1:])):
        return None
    events = [{'state': state, 'tstamp': at} for state, at in zip(rest[::2], times)]
    return {'events': events, 'num': num, 'tn': dict([tn]), 'zip': dict([zipcode])}


def main():
    first, dirty, encode = 0, 0, json.JSONEncoder(separators=(',', ':')).encode
    for record, raw in enumerate(sys.stdin.buffer):
        line = raw.rstrip(b'\n').decode('latin-1')
        end = first + len(line)
        value = value_of(line, record == 0)
        if value is None:
            dirty = 1
            print(encode({'class': 'Err', 'record': record, 'span': [first, end]}))
        else:
            print(encode({'class': 'Ok', 'faults': [], 'nerr': 0, 'next': end, 'record': record,
                          'span': [first, end], 'value': value}))
        first += len(raw)
    sys.exit(dirty)


if __name__ == '__main__':
    main()
