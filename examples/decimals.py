#!/usr/bin/env python3
"""Says what all decimals of two bytes read as, and how each number that is read is spelled.

A second reader of packed and zoned decimals. It goes by the hexadecimal text of the bytes, in which the digits of a
number stand as they are written, and was written from the rules in crates/pads_decimal/README.md and not from the code.

    examples/decimals.py            writes the table of crates/test_decimal
    examples/decimals.py --check    tells whether the table has that
"""
import pathlib
import sys

TABLE = pathlib.Path(__file__).parent.parent / 'crates' / 'test_decimal' / 'data' / 'two_bytes.txt'
HEAD = '''\
# What each field of two bytes reads as: written by examples/decimals.py, a second reader.
#
# A row is a form with its number of digits, the first byte, and the second bytes with which a field is read. A number
# has its canonical spelling behind it; RANGE is soft, over two bytes. With each other second byte the field is
# INVALID, soft, over two bytes.
'''
SIGNS = {'C': 1, 'D': -1, 'F': 1}


def allowed(sign, signed):
    return sign in SIGNS and (signed or sign != 'D')


def packed(field, digits, signed):
    """The number of a packed field in hexadecimal; the name of a cause where it has none."""
    written, sign = field[:-1], field[-1]
    if not (written.isdigit() and allowed(sign, signed)):
        return 'INVALID'
    if len(written) > digits and written[0] != '0':
        return 'RANGE'
    return SIGNS[sign] * int(written)


def zoned(field, digits, signed):
    """The number of a zoned field in hexadecimal; the name of a cause where it has none."""
    zones, written = field[0::2], field[1::2]
    if not (written.isdigit() and set(zones[:-1]) <= {'F'} and allowed(zones[-1], signed)):
        return 'INVALID'
    return SIGNS[zones[-1]] * int(written)


def sign_of(number, signed):
    return ('D' if number < 0 else 'C') if signed else 'F'


def spelled_packed(number, digits, signed):
    text = f'{abs(number):0{digits}}{sign_of(number, signed)}'
    return text if len(text) % 2 == 0 else '0' + text


def spelled_zoned(number, digits, signed):
    text = f'{abs(number):0{digits}}'
    return ''.join('F' + digit for digit in text[:-1]) + sign_of(number, signed) + text[-1]


FORMS = [(name, read, spelled, digits, signed)
         for name, read, spelled, counts in [('packed', packed, spelled_packed, (2, 3)),
                                             ('zoned', zoned, spelled_zoned, (2,))]
         for digits in counts for signed in (True, False)]


def told(read, spelled, digits, signed, first, second):
    answer = read(f'{first:02X}{second:02X}', digits, signed)
    if answer == 'INVALID':
        return ''
    return f' {second:02x}={answer}' + ('' if answer == 'RANGE' else f'/{spelled(answer, digits, signed).lower()}')


def rows():
    for name, read, spelled, digits, signed in FORMS:
        for first in range(256):
            fields = ''.join(told(read, spelled, digits, signed, first, second) for second in range(256))
            yield f'{name} {digits} {"signed" if signed else "unsigned"} {first:02x}:{fields}\n'


def main():
    table = HEAD + ''.join(rows())
    if sys.argv[1:] == ['--check']:
        same = TABLE.read_text() == table
        print(f'{TABLE.name}: {"as it must be" if same else "differs"}')
        return 0 if same else 1
    TABLE.write_text(table)
    return 0


if __name__ == '__main__':
    sys.exit(main())
