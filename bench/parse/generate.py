#!/usr/bin/env python3
"""Writes records of about so many megabytes, one in fifty of them faulty.

    generate.py weblog|provisioning|readings|accounts|messages MEGABYTES > FILE
"""
import random
import struct
import sys


def weblog(dice, n):
    client = '%d.%d.%d.%d' % tuple(dice.randrange(256) for _ in range(4))
    user, verb = dice.choice(('-', '-', 'kfisher')), dice.choice(('GET', 'GET', 'POST', 'HEAD'))
    path = '/~%s/%d.html' % (dice.choice(('kfisher', 'tk', 'images')), dice.randrange(100000))
    size = str(dice.randrange(10**6)) if n % 50 else '-'
    line = '%s - %s [15/Oct/1997:%02d:%02d:%02d -0700] "%s %s HTTP/1.0" %d %s\n' % (
        client, user, dice.randrange(24), dice.randrange(60), dice.randrange(60), verb, path,
        dice.choice((200, 200, 304, 404)), size)
    return line.encode()


def provisioning(dice, n):
    if n == 0:
        return b'0|1005022800\n'
    at, events = 1000295291 + dice.randrange(10**6), []
    for _ in range(dice.randrange(1, 8)):
        events.append('%s|%d' % (dice.choice(('10', '20', 'LOC_6', 'EDTF', 'CRTE')), at))
        at += dice.randrange(5000)
    if n % 50 == 7:
        events.append('10|1000000000')
    tn = str(dice.randrange(10**9)) if dice.randrange(2) else ''
    return ('%d|%s|%05d|%s\n' % (n, tn, dice.randrange(7001, 8989), '|'.join(events))).encode()


def readings(dice, n):
    hour = dice.randrange(24) if n % 50 else 24
    return ('%s%d|%d|%d\n' % (dice.choice('ABCD'), dice.randrange(100), hour, dice.randrange(-60, 61))).encode()


def accounts(dice, n):
    kind = dice.choice(('SAV', 'CHK', 'LN ')) if n % 50 else 'MTG'
    cents = dice.randrange(10**8) * (-1 if kind == 'LN ' else 1)
    opened = '%04d%02d%02d' % (dice.randrange(1960, 2020), dice.randrange(1, 13), dice.randrange(1, 29))
    holder = dice.choice(('MARTINEZ', "O'BRIEN", 'SMITH', 'NG', 'ABBOTT')).ljust(12)
    number = '%s%05d' % (dice.choice('ABCXYZ'), dice.randrange(10**5))
    return ((number + kind).encode('cp037') + struct.pack('>iH', cents, dice.randrange(1, 301))
            + (opened + holder).encode('cp037'))


def messages(dice, n):
    kind = n % 3 + 1
    if kind == 1:
        text = dice.choice((b'pump off', b'pump on', b'door open'))
        body = struct.pack('>H', len(text)) + text
    elif kind == 2:
        count = dice.randrange(1, 20)
        body = struct.pack('>B%dh' % count, count, *(dice.randrange(-30000, 30000) for _ in range(count)))
    else:
        body = struct.pack('>Ih', dice.randrange(1, 2**32) if n % 50 else 0, dice.randrange(-30000, 30000))
    return struct.pack('>HHB', len(body) + 5, 0, kind) + body


def main():
    make = {'weblog': weblog, 'provisioning': provisioning, 'readings': readings, 'accounts': accounts,
            'messages': messages}[sys.argv[1]]
    left, dice, n, block = int(sys.argv[2]) * 1_000_000, random.Random(7), 0, []
    while left > 0:
        record = make(dice, n)
        left, n = left - len(record), n + 1
        block.append(record)
        if len(block) == 10_000:
            sys.stdout.buffer.write(b''.join(block))
            block = []
    sys.stdout.buffer.write(b''.join(block))


if __name__ == '__main__':
    main()
