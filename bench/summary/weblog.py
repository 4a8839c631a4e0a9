#!/usr/bin/env python3
"""The report of a web log, counted as `pads summary examples/weblog.pads` does: for each part the good and bad nodes, the
numbers, and the first thousand values. It knows the faulty lines that `bench/parse/generate.py` makes, which lack a length."""
import json
import re
import sys

LINE = re.compile(r'(\d{1,3}\.\d{1,3}\.\d{1,3}\.\d{1,3}) (\S*) (\S*) \[([^\]]*)\] '
                  r'"(GET|PUT|POST|HEAD|DELETE|LINK|UNLINK) (\S*) HTTP/(\d+)\.(\d+)" (\d\d\d) (\d+|-)', re.ASCII)


class Part:
    """What is kept of the nodes of a part."""

    def __init__(self):
        self.good, self.bad, self.nums, self.least, self.greatest, self.sum, self.others = 0, 0, 0, 0, 0, 0, 0
        self.tracked = {}

    def count(self, value):
        """A good node, with what it gives; a structure gives nothing."""
        self.good += 1
        if value is None:
            return
        if isinstance(value, int):
            self.least = min(self.least, value) if self.nums else value
            self.greatest = max(self.greatest, value) if self.nums else value
            self.nums += 1
            self.sum += value
        if value in self.tracked:
            self.tracked[value] += 1
        elif len(self.tracked) < 1000:
            self.tracked[value] = 1
        else:
            self.others += 1


def cut(number, divisor):
    """A quotient with three decimals, cut."""
    return f'{number // divisor}.{number % divisor * 1000 // divisor:03}' if divisor else '0.000'


def report(parts, top):
    print('type entry_t')
    for place, part in parts.items():
        print(f'{place}: good {part.good} bad {part.bad} pct {cut(100 * part.bad, part.good + part.bad)}')
        if part.nums:
            print(f'  min {part.least} max {part.greatest} avg {cut(part.sum, part.nums)}')
        if part.tracked:
            print(f'  values {len(part.tracked)} others {part.others}')
            for value, count in sorted(part.tracked.items(), key=lambda pair: -pair[1])[:top]:
                print(f'  {count} {value if isinstance(value, int) else json.dumps(value, ensure_ascii=False)}')


def main():
    places = ('. $ client remote remote.none remote.id auth auth.none auth.id date request request.meth request.uri '
              'request.version request.version.major request.version.minor response length')
    parts = {place: Part() for place in places.split()}
    for line in sys.stdin:
        found = LINE.fullmatch(line.rstrip('\n'))
        if not found:
            sys.exit(f'a line that generate.py does not make: {line}')
        client, remote, auth, date, meth, uri, major, minor, code, length = found.groups()
        parts['$'].good += 1                        # replaced below where the length is missing
        parts['client'].count(client)
        for place, name in (('remote', remote), ('auth', auth)):
            branch = 'none' if name == '-' else 'id'
            parts[place].count(branch)
            parts[f'{place}.{branch}'].count(name)
        parts['date'].count(date)
        parts['request'].count(None)
        parts['request.meth'].count(meth)
        parts['request.uri'].count(uri)
        parts['request.version'].count(None)
        parts['request.version.major'].count(int(major))
        parts['request.version.minor'].count(int(minor))
        parts['response'].count(int(code))
        if length == '-':
            for place in ('.', '$', 'length'):
                parts[place].bad += 1
            parts['$'].good -= 1
        else:
            parts['.'].good += 1
            parts['length'].count(int(length))
    report(parts, 10)


if __name__ == '__main__':
    main()
