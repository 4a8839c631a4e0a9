#!/usr/bin/env python3
"""Writes the examples' data and the lines that `pads parse` is to give for them.

The lines come from a small reader below, written from the rules in docs/ and not from the program, so
that they say what is wanted of it.

    examples/make.py            writes the files again
    examples/make.py --check    tells whether the files are what it would write
"""
import json
import os
import random
import sys

HERE = os.path.dirname(os.path.abspath(__file__))
MISSING = object()


class Node:
    """What was found at a place: its own cause, its extent, and the nodes below it, each with its step."""

    def __init__(self, begin, end, cause=None, fails=False, kids=()):
        self.begin, self.end, self.cause, self.fails, self.kids = begin, end, cause, fails, list(kids)

    def clean(self):
        return self.cause is None and all(kid.clean() for _, kid in self.kids)



def fails(cause, i):
    return MISSING, Node(i, i, cause, True), i


# Each reader takes the record's bytes, the names in scope and a place, and gives value, node and place.

def int_type(low, high, coding='ascii'):
    def read(record, scope, i):
        text = record[i:].decode('latin-1' if coding == 'ascii' else 'cp037')
        signs = '+-' if low < 0 else '+'
        j = 1 if text[:1] and text[0] in signs else 0
        k = j
        while k < len(text) and text[k] in '0123456789':
            k += 1
        if k == j:
            return fails('INVALID', i)
        number = int(text[:k])
        if not low <= number <= high:
            return MISSING, Node(i, i + k, 'RANGE'), i + k
        return number, Node(i, i + k), i + k
    return read


def field_int(width, low, high, coding='ascii'):
    def read(record, scope, i):
        if len(record) - i < width:
            return fails('WIDTH', i)
        text = record[i:i + width].decode('latin-1' if coding == 'ascii' else 'cp037').lstrip(' ')
        digits = text[1:] if text[:1] and text[0] in ('+-' if low < 0 else '+') else text
        if not digits or any(c not in '0123456789' for c in digits):
            return MISSING, Node(i, i + width, 'INVALID'), i + width
        if not low <= int(text) <= high:
            return MISSING, Node(i, i + width, 'RANGE'), i + width
        return int(text), Node(i, i + width), i + width
    return read


def binary(size, signed):
    def read(record, scope, i):
        if len(record) - i < size:
            return fails('WIDTH', i)
        return int.from_bytes(record[i:i + size], 'big', signed=signed), Node(i, i + size), i + size
    return read


def until(stop=None):
    def read(record, scope, i):
        j = len(record) if stop is None else record.find(stop, i)
        j = len(record) if j < 0 else j
        return record[i:j].decode('latin-1'), Node(i, j), j
    return read


def fixed(width, coding='ascii'):
    def read(record, scope, i):
        w = width(scope) if callable(width) else width
        if w is MISSING:
            return fails('BAD_PARAM', i)
        if len(record) - i < w:
            return fails('WIDTH', i)
        return record[i:i + w].decode('latin-1' if coding == 'ascii' else 'cp037'), Node(i, i + w), i + w
    return read


def address(record, scope, i):
    text, parts, j = record.decode('latin-1'), [], i
    for number in range(4):
        if number > 0:
            if text[j:j + 1] != '.':
                return fails('INVALID', i)
            j += 1
        k = j
        while k < len(text) and text[k] in '0123456789':
            k += 1
        if not 1 <= k - j <= 3 or int(text[j:k]) > 255:
            return fails('INVALID', i)
        parts.append(str(int(text[j:k])))
        j = k
    return '.'.join(parts), Node(i, j), j


def label(spellings, coding='ascii'):
    def read(record, scope, i):
        text = record[i:].decode('latin-1' if coding == 'ascii' else 'cp037')
        found = [name for name, spelling in spellings if text.startswith(spelling)]
        if not found:
            return fails('ENUM', i)
        name = max(found, key=lambda n: len(dict(spellings)[n]))
        return name, Node(i, i + len(dict(spellings)[name])), i + len(dict(spellings)[name])
    return read


def mark(literal):
    """A literal that is looked for."""
    def read(record, scope, i):
        j = record.find(literal, i)
        if j < 0:
            return fails('MISSING_LITERAL', i)
        return None, Node(i, j + len(literal), 'SKIPPED' if j > i else None), j + len(literal)
    return read


def struct(*parts):
    def read(record, scope, i):
        scope, kids, value, place = dict(scope), [], {}, i
        for number, (name, reader) in enumerate(parts):
            v, node, place = reader(record, scope, place)
            kids.append((name or '#%d' % number, node))
            if name:
                scope[name] = value[name] = v
        return value, Node(i, place, kids=kids), place
    return read


def guard(reader, name, condition):
    def read(record, scope, i):
        v, node, place = reader(record, scope, i)
        if node.clean() and not condition(dict(scope, **{name: v})):
            node.cause = 'CONSTRAINT'
        return v, node, place
    return read


def choice(*branches):
    def read(record, scope, i):
        for name, reader in branches:
            v, node, place = reader(record, scope, i)
            if node.clean():
                return {name: v}, Node(i, place, kids=[(name, node)]), place
        return fails('UNION_MATCH', i)
    return read


def switch(selector, cases, default=None):
    def read(record, scope, i):
        key = selector(scope)
        branch = None if key is MISSING else cases.get(key, default)
        if branch is None:
            return fails('SWITCH', i)
        name, reader = branch
        v, node, place = reader(record, scope, i)
        return {name: v}, Node(i, place, kids=[(name, node)]), place
    return read


def optional(reader):
    return choice(('some', reader), ('none', lambda record, scope, i: (None, Node(i, i), i)))


def array(reader, separator=b'', size=None, condition=None):
    def read(record, scope, i):
        wanted = size(scope) if size else None
        if wanted is MISSING or (wanted is not None and wanted < 0):
            return fails('ARRAY_BOUND', i)
        values, kids, place, cause = [], [], i, None
        while wanted is None or len(values) < wanted:
            if place == len(record):
                cause = 'ARRAY_SIZE' if wanted is not None else None
                break
            at = place
            if values and separator:
                if not record.startswith(separator, place):
                    cause = 'ARRAY_SEP'
                    break
                at = place + len(separator)
            v, node, after = reader(record, scope, at)
            if node.fails and after == at:
                cause = 'ARRAY_ELEM'
                break
            if values and after == place:
                cause = 'ARRAY_STALL'
                break
            kids.append((len(values), node))
            values.append(v)
            place = after
        node = Node(i, place, cause, kids=kids)
        if condition and node.clean() and not condition(values):
            node.cause = 'CONSTRAINT'
        return values, node, place
    return read


# Lines.

def shown(value):
    if value is MISSING:
        return None
    if isinstance(value, dict):
        return {name: shown(v) for name, v in value.items()}
    if isinstance(value, list):
        return [shown(v) for v in value]
    return value


def told(node, place, first):
    """All faults of a node and of those below it, with their places."""
    found = []
    if node.cause:
        found.append({'at': place, 'cause': node.cause, 'span': [first + node.begin, first + node.end]})
    for step, kid in node.kids:
        if isinstance(step, int):
            below = '%s[%d]' % (place, step)
        else:
            below = step if place == '$' else '%s.%s' % (place, step)
        found += told(kid, below, first)
    return found


def line(number, first, end, record, reader, mark_cause=None):
    if record is None:
        faults = [{'at': '.', 'cause': mark_cause, 'span': [first, end]}]
        kind, count, after, value = 'Fail', 1, first, None
    else:
        v, body, place = reader(record, {}, 0)
        faults = [{'at': '.', 'cause': mark_cause, 'span': [first, end]}] if mark_cause else []
        faults += told(body, '$', first)
        if place < len(record):
            faults.append({'at': '.', 'cause': 'EXTRA_BEFORE_EOR', 'span': [first + place, end]})
        count, after, value = len(faults), first + place, shown(v)
        kind = 'Err' if faults else 'Ok'
    return json.dumps({'class': kind, 'faults': faults, 'nerr': count, 'next': after, 'record': number,
                       'span': [first, end], 'value': value},
                      sort_keys=True, separators=(',', ':'), ensure_ascii=False) + '\n'


def of_lines(data, reader, header=None):
    out, first = [], 0
    for number, record in enumerate(data.split(b'\n')[:-1] if data.endswith(b'\n') else data.split(b'\n')):
        out.append(line(number, first, first + len(record), record, header if header and number == 0 else reader))
        first += len(record) + 1
    return ''.join(out).encode()


def of_blocks(data, size, reader):
    out = []
    for number, first in enumerate(range(0, len(data), size)):
        record = data[first:first + size]
        out.append(line(number, first, first + len(record), record, reader,
                        'RECORD_SHORT' if len(record) < size else None))
    return ''.join(out).encode()


def of_words(data, reader):
    out, at, number = [], 0, 0
    while at < len(data):
        size = int.from_bytes(data[at:at + 2], 'big')
        if len(data) - at < 4 or size < 4 or data[at + 2:at + 4] != b'\0\0' or len(data) - at < size:
            out.append(line(number, at, len(data), None, reader, 'RECORD_BROKEN'))
            break
        out.append(line(number, at + 4, at + size, data[at + 4:at + size], reader))
        at, number = at + size, number + 1
    return ''.join(out).encode()


# A web log.

WEBLOG = '''Punion auth_t { Pchar none : none == '-'; Pstring(:' ':) id; };
Pstruct version_t { "HTTP/"; Puint8 major; '.'; Puint8 minor; };
Penum method_t { GET, PUT, POST, HEAD, DELETE, LINK, UNLINK };
Pstruct request_t { '"'; method_t meth; ' '; Pstring(:' ':) uri; ' '; version_t version; '"'; };
Ptypedef Puint16_FW(:3:) response_t : response_t x => { 100 <= x && x < 600 };
Precord Pstruct entry_t {
  Pip client; ' '; auth_t remote; ' '; auth_t auth;
  " ["; Pstring(:']':) date; "] "; request_t request;
  ' '; response_t response; ' '; Puint32 length;
};
Psource Parray clt_t { entry_t[]; };
'''


def weblog_reader():
    dash = guard(lambda r, s, i: fixed(1)(r, s, i), 'none', lambda s: s['none'] == '-')
    auth = choice(('none', dash), ('id', until(b' ')))
    byte = int_type(0, 255)
    version = struct((None, mark(b'HTTP/')), ('major', byte), (None, mark(b'.')), ('minor', byte))
    method = label([(m, m) for m in 'GET PUT POST HEAD DELETE LINK UNLINK'.split()])
    request = struct((None, mark(b'"')), ('meth', method), (None, mark(b' ')), ('uri', until(b' ')),
                     (None, mark(b' ')), ('version', version), (None, mark(b'"')))
    response = guard(field_int(3, 0, 65535), 'x', lambda s: 100 <= s['x'] < 600)
    blank = mark(b' ')
    return struct(('client', address), (None, blank), ('remote', auth), (None, blank), ('auth', auth),
                  (None, mark(b' [')), ('date', until(b']')), (None, mark(b'] ')), ('request', request),
                  (None, blank), ('response', response), (None, blank), ('length', int_type(0, 2**32 - 1)))


def weblog_data(count=36):
    dice = random.Random(1997)
    paths = ['/', '/tk/p.txt', '/images/logo.gif', '/~kfisher/', '/search?q=pads', '/robots.txt']
    out = []
    for n in range(count):
        client = '.'.join(str(dice.randrange(1, 255)) for _ in range(4))
        user = dice.choice(['-', '-', '-', 'kfisher', 'ruggero'])
        when = '15/Oct/1997:%02d:%02d:%02d -0700' % (dice.randrange(24), dice.randrange(60), dice.randrange(60))
        verb, path = dice.choice(['GET', 'GET', 'GET', 'HEAD', 'POST']), dice.choice(paths)
        code, size = dice.choice(['200', '200', '304', '404', '500']), str(dice.randrange(30, 90000))
        if n == 5:
            size = '-'
        if n == 9:
            client = 'tj62.aol.com'
        if n == 14:
            code = '999'
        if n == 19:
            verb = 'BREW'
        if n == 23:
            size += ' extra'
        if n == 27:
            path += ' HTTP/1.0 and more'
        if n == 31:
            code = '2x0'
        out.append('%s - %s [%s] "%s %s HTTP/1.%d" %s %s\n' % (client, user, when, verb, path, n % 2, code, size))
    return ''.join(out).encode()


# Provisioning orders: a header, then orders with the states that each went through.

PROVISIONING = '''Precord Pstruct head_t { "0|"; Puint32 tstamp; };
Pstruct event_t { Pstring(:'|':) state; '|'; Puint32 tstamp; };
Parray events_t {
  event_t[] : Psep('|') && Pterm(Peor);
} Pwhere { Pforall (i Pin [0..length-2] : (elts[i].tstamp <= elts[i+1].tstamp)); };
Precord Pstruct order_t {
  Puint32 num; '|'; Popt Puint32 tn; '|'; Popt Puint32 zip; '|'; events_t events;
};
Parray orders_t { order_t[]; };
Psource Pstruct file_t { head_t h; orders_t es; };
'''


def provisioning_readers():
    number, bar = int_type(0, 2**32 - 1), mark(b'|')
    event = struct(('state', until(b'|')), (None, bar), ('tstamp', number))
    events = array(event, b'|', condition=lambda es: all(a['tstamp'] <= b['tstamp'] for a, b in zip(es, es[1:])))
    order = struct(('num', number), (None, bar), ('tn', optional(number)), (None, bar), ('zip', optional(number)),
                   (None, bar), ('events', events))
    return struct((None, mark(b'0|')), ('tstamp', number)), order


def provisioning_data(count=36):
    dice, out = random.Random(2001), ['0|1005022800\n']
    for n in range(count):
        at, events = 1000295291 + dice.randrange(100000), []
        for _ in range(dice.randrange(0, 5)):
            events.append((str(dice.choice([10, 20, 'LOC_6', 'EDTF', 'CRTE'])), at))
            at += dice.randrange(0, 5000)
        tn = '' if dice.randrange(3) == 0 else str(dice.randrange(9735550000, 9735559999) % 2**32)
        zip_code = '' if dice.randrange(3) == 0 else '%05d' % dice.randrange(7001, 8989)
        text = '|'.join('%s|%d' % event for event in events)
        num = str(9152 + n)
        if n == 4:
            text = '10|1000295292|20|1000295291'
        if n == 11:
            zip_code = 'no zip'
        if n == 17:
            num = '99999999999'
        if n == 22:
            text = '10|1000295291|20|soon'
        if n == 29:
            num = ''
        out.append('%s|%s|%s|%s\n' % (num, tn, zip_code, text))
    return ''.join(out).encode()


# An extract of a mainframe: blocks of 35 bytes, text in EBCDIC, numbers in binary.

ACCOUNTS = '''Penum kind_t { SAVINGS Pfrom("SAV"), CHECKING Pfrom("CHK"), LOAN Pfrom("LN ") };
Precord Pstruct account_t {
  Pstring_FW(:6:) number : "A00000" <= number && number <= "Z99999";
  kind_t kind;
  Psbh_int32 cents : Pis(kind, LOAN) || cents >= 0;
  Psbh_uint16 branch : 1 <= branch && branch <= 300;
  Puint32_FW(:8:) opened : 19000101 <= opened && opened <= 20991231;
  Pstring_FW(:12:) holder;
};
'''
ACCOUNT_SIZE = 35


def account_reader():
    text = lambda width: fixed(width, 'ebcdic')
    kind = label([('SAVINGS', 'SAV'), ('CHECKING', 'CHK'), ('LOAN', 'LN ')], 'ebcdic')

    def solvent(scope):
        if scope['kind'] is MISSING:
            return False
        return scope['kind'] == 'LOAN' or scope['cents'] >= 0
    return struct(
        ('number', guard(text(6), 'number', lambda s: 'A00000' <= s['number'] <= 'Z99999')),
        ('kind', kind),
        ('cents', guard(binary(4, True), 'cents', solvent)),
        ('branch', guard(binary(2, False), 'branch', lambda s: 1 <= s['branch'] <= 300)),
        ('opened', guard(field_int(8, 0, 2**32 - 1, 'ebcdic'), 'opened', lambda s: 19000101 <= s['opened'] <= 20991231)),
        ('holder', text(12)))


def account_data(count=32):
    dice, out = random.Random(370), b''
    names = ['MARTINEZ', "O'BRIEN", 'SMITH', 'NG', 'VAN DER BERG', 'ABBOTT']
    for n in range(count):
        number = '%s%05d' % (dice.choice('ABCXYZ'), dice.randrange(100000))
        kind, cents = dice.choice(['SAV', 'CHK', 'LN ']), dice.randrange(0, 10**8)
        if kind == 'LN ':
            cents = -cents
        branch, opened = dice.randrange(1, 301), '%04d%02d%02d' % (dice.randrange(1960, 2020), dice.randrange(1, 13), dice.randrange(1, 29))
        if n == 3:
            kind = 'MTG'
        if n == 8:
            kind, cents = 'CHK', -1250
        if n == 13:
            branch = 0
        if n == 18:
            opened = '2O010214'
        if n == 24:
            number = '00A123'
        out += number.encode('cp037') + kind.encode('cp037') + cents.to_bytes(4, 'big', signed=True)
        out += branch.to_bytes(2, 'big') + opened.encode('cp037') + dice.choice(names).ljust(12).encode('cp037')
    return out[:-14]


# Messages behind length words, of a kind that their first byte tells.

MESSAGES = '''Pstruct text_t { Psbh_uint16 size; Pstring_FW(:size:) words; };
Parray samples_t(:Puint8 count:) { Psbh_int16[count]; };
Pstruct trace_t { Psbh_uint8 count; samples_t(:count:) samples; };
Pstruct reading_t { Psbh_uint32 sensor : sensor != 0; Psbh_int16 value; };
Punion body_t(:Puint8 kind:) {
  Pswitch (kind) {
    Pcase 1: text_t text;
    Pcase 2: trace_t trace;
    Pcase 3: reading_t reading;
  }
};
Precord Pstruct message_t { Psbh_uint8 kind; body_t(:kind:) body; };
'''


def message_reader():
    text = struct(('size', binary(2, False)), ('words', fixed(lambda s: s['size'])))
    samples = array(binary(2, True), size=lambda s: s['count'])
    trace = struct(('count', binary(1, False)), ('samples', samples))
    reading = struct(('sensor', guard(binary(4, False), 'sensor', lambda s: s['sensor'] != 0)), ('value', binary(2, True)))
    body = switch(lambda s: s['kind'], {1: ('text', text), 2: ('trace', trace), 3: ('reading', reading)})
    return struct(('kind', binary(1, False)), ('body', body))


def message_data(count=30):
    dice, out = random.Random(4), b''
    for n in range(count):
        kind = n % 3 + 1
        if kind == 1:
            words = dice.choice([b'pump on', b'pump off', b'door "B" open', b''])
            body = len(words).to_bytes(2, 'big') + words
        elif kind == 2:
            values = [dice.randrange(-32768, 32768) for _ in range(dice.randrange(0, 5))]
            body = bytes([len(values)]) + b''.join(v.to_bytes(2, 'big', signed=True) for v in values)
        else:
            body = dice.randrange(1, 2**32).to_bytes(4, 'big') + dice.randrange(-400, 1200).to_bytes(2, 'big', signed=True)
        if n == 6:
            body = (40).to_bytes(2, 'big') + b'cut short'
        if n == 10:
            body = bytes([4]) + b'\0\1\0\2\0\3'
        if n == 15:
            kind = 9
        if n == 20:
            body = (0).to_bytes(4, 'big') + b'\0\7'
        if n == 24:
            body += b'??'
        record = bytes([kind]) + body
        out += (len(record) + 4).to_bytes(2, 'big') + b'\0\0' + record
    return out + b'\0\40\0\0\1\0\4half'


# Readings of some sensors, that the tutorial describes.

READINGS_FIRST = '''Precord Pstruct reading_t {
  Pstring(:'|':) sensor; '|'; Puint8 hour; '|'; Pint16 celsius;
};
'''

READINGS = '''Precord Pstruct reading_t {
  Pstring(:'|':) sensor; '|';
  Puint8 hour : hour < 24; '|';
  Pint16 celsius : -60 <= celsius && celsius <= 60;
};
'''

READINGS_DATA = b'''A7|12|21
A7|13|22
B2|x3|20
A7|14|-400
C1|15|
B2 16|18
B2|25|19
A7|16|23 C
'''


def readings_reader(hour=lambda s: True, celsius=lambda s: True):
    bar = mark(b'|')
    return struct(('sensor', until(b'|')), (None, bar), ('hour', guard(int_type(0, 255), 'hour', hour)), (None, bar),
                  ('celsius', guard(int_type(-32768, 32767), 'celsius', celsius)))


def files():
    strict = readings_reader(lambda s: s['hour'] < 24, lambda s: -60 <= s['celsius'] <= 60)
    weblog, (header, order) = weblog_data(), provisioning_readers()
    provisioning, accounts, messages = provisioning_data(), account_data(), message_data()
    return {
        'weblog.pads': WEBLOG.encode(), 'weblog.txt': weblog, 'weblog.lines': of_lines(weblog, weblog_reader()),
        'provisioning.pads': PROVISIONING.encode(), 'provisioning.txt': provisioning,
        'provisioning.lines': of_lines(provisioning, order, header),
        'accounts.pads': ACCOUNTS.encode(), 'accounts.bin': accounts,
        'accounts.lines': of_blocks(accounts, ACCOUNT_SIZE, account_reader()),
        'messages.pads': MESSAGES.encode(), 'messages.bin': messages,
        'messages.lines': of_words(messages, message_reader()),
        'readings-first.pads': READINGS_FIRST.encode(), 'readings.pads': READINGS.encode(), 'readings.txt': READINGS_DATA,
        'readings-first.lines': of_lines(READINGS_DATA, readings_reader()), 'readings.lines': of_lines(READINGS_DATA, strict),
    }


def main():
    wrong = []
    for name, content in files().items():
        path = os.path.join(HERE, name)
        if '--check' in sys.argv:
            if not os.path.exists(path) or open(path, 'rb').read() != content:
                wrong.append(name)
        else:
            with open(path, 'wb') as file:
                file.write(content)
    if wrong:
        sys.exit('not as made: ' + ', '.join(wrong))


if __name__ == '__main__':
    main()
