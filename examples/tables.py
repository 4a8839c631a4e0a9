#!/usr/bin/env python3
"""Says what must be told of the rows of `crates/test_walk/data`.

A second reader of descriptions and records, written from the rules in docs/ and not from the program. It
takes every description to be accepted.

    examples/tables.py            writes the tables with what must be told below each row
    examples/tables.py --check    tells whether the tables have that
"""
import json
import os
import re
import sys

import decimals

TABLES = os.path.join(os.path.dirname(os.path.abspath(__file__)), '..', 'crates', 'test_walk', 'data')
KINDS = {f'{sign}int{bits}': (f'{"i" if not sign else "u"}{bits}',
                              0 if sign else -2 ** (bits - 1), 2 ** (bits - (not sign)) - 1)
         for sign in ('', 'u') for bits in (8, 16, 32, 64)}
RANGES = {name: (low, high) for name, low, high in KINDS.values()}
KEYWORDS = set('Pstruct Punion Parray Penum Popt Ptypedef Pswitch Pcase Pdefault Pwhere Precord Psource Precursive Psep '
               'Pterm Plast Peor Pforall Pin Pcompute Pfrom Pis Plen true false'.split())
ESCAPES = {'n': '\n', 'r': '\r', 't': '\t', '0': '\0', '\\': '\\', "'": "'", '"': '"'}
MISSING = ('-',)
UNIT = ('_',)
FAILING = set('WIDTH BAD_PARAM ENUM MISSING_LITERAL MISSING_EOR UNION_MATCH SWITCH COMPUTE ARRAY_BOUND DEPTH '
              'RECORD_LONG RECORD_BROKEN'.split())


# Tokens: pairs of a kind (name, number, char, text, mark) and a value.

TOKEN = re.compile(r"""(?P<gap>[\t\n\r ]+|/\*.*?\*/|//[^\n]*|/-[^\n]*)|(?P<name>[A-Za-z_]\w*)
    |(?P<number>0x[0-9a-fA-F]+|\d+)|(?P<char>'(?:[^'\\]|\\.[0-9a-fA-F]{0,2})')|(?P<text>"(?:[^"\\]|\\.)*")
    |(?P<mark>\(:|:\)|\.\.|=>|==|!=|<=|>=|&&|\|\||[{}\[\]();,:.=!<>+\-*/%$])""", re.X | re.S | re.A)


def unescaped(body):
    return re.sub(r'\\(x[0-9a-fA-F]{2}|.)',
                  lambda m: chr(int(m[1][1:], 16)) if m[1][0] == 'x' else ESCAPES[m[1]], body)


def tokens_of(text):
    at, found = 0, []
    while at < len(text):
        m = TOKEN.match(text, at)
        assert m, f'no token: {text[at:at + 20]!r}'
        at, kind, spelled = m.end(), m.lastgroup, m[0]
        if kind in ('char', 'text'):
            found.append((kind, unescaped(spelled[1:-1])))
        elif kind == 'number':
            found.append((kind, int(spelled, 0)))
        elif kind != 'gap':
            found.append((kind if spelled not in KEYWORDS else 'mark', spelled))
    return found + [('end', None)]


class Parser:
    """The grammar by descent. Trees are tuples, each with its form first."""

    def __init__(self, text):
        self.tokens, self.at = tokens_of(text), 0

    def sees(self, *marks):
        return self.tokens[self.at][0] == 'mark' and self.tokens[self.at][1] in marks

    def take(self, *kinds):
        kind, value = self.tokens[self.at]
        assert kind in kinds, (kinds, kind, value)
        self.at += 1
        return value

    def mark(self, mark):
        assert self.sees(mark), (mark, self.tokens[self.at])
        self.at += 1

    def skips(self, *marks):
        if self.sees(*marks):
            self.at += 1
            return self.tokens[self.at - 1][1]
        return None

    def listed(self, read, until):
        found = []
        while not self.sees(until):
            found.append(read())
        self.mark(until)
        return found

    def separated(self, read, between):
        found = [read()]
        while self.skips(between):
            found.append(read())
        return found

    def description(self):
        decls = []
        while self.tokens[self.at][0] != 'end':
            role = self.skips('Precord', 'Psource', 'Precursive')
            form = self.take('mark')
            decl = getattr(self, form[1:])()
            decls.append({'role': role, 'form': form, **decl})
            self.mark(';')
        return decls

    def params(self):
        if not self.skips('(:'):
            return []
        params = self.separated(lambda: (self.type(), self.take('name')), ',')
        self.mark(':)')
        return params

    def head(self):
        return {'name': self.take('name'), 'params': self.params()}

    def struct(self):
        head = self.head()
        self.mark('{')
        return {**head, 'parts': self.listed(self.part, '}'), 'where': self.where()}

    def part(self):
        if self.skips('Peor'):
            part = ('eor',)
        elif self.tokens[self.at][0] in ('char', 'text'):
            part = ('literal', self.take('char', 'text'))
        elif self.skips('Pcompute'):
            of, name = self.type(), self.take('name')
            self.mark('=')
            part = ('compute', of, name, self.expr())
        else:
            return self.branch()
        self.mark(';')
        return part

    def branch(self):
        of, name = self.type(), self.take('name')
        e = self.expr() if self.skips(':') else None
        self.mark(';')
        return ('field', of, name, e)

    def where(self):
        if not self.skips('Pwhere'):
            return None
        self.mark('{')
        e = self.expr()
        self.skips(';')
        self.mark('}')
        return e

    def union(self):
        head = self.head()
        self.mark('{')
        if not self.skips('Pswitch'):
            return {**head, 'branches': self.listed(self.branch, '}'), 'switch': None}
        self.mark('(')
        e = self.expr()
        self.mark(')')
        self.mark('{')
        cases = self.listed(self.case, '}')
        self.mark('}')
        return {**head, 'switch': (e, cases)}

    def case(self):
        if self.skips('Pdefault'):
            key = None
        else:
            self.mark('Pcase')
            minus = self.skips('-')
            key = self.take('number', 'char', 'text')
            key = -key if minus else key
        self.mark(':')
        return (key, self.branch())

    def array(self):
        head = self.head()
        self.mark('{')
        of = self.type()
        self.mark('[')
        size = None if self.sees(']') else self.expr()
        self.mark(']')
        options = dict(self.separated(self.option, '&&')) if self.skips(':') else {}
        self.mark(';')
        self.mark('}')
        return {**head, 'of': of, 'size': size, 'options': options, 'where': self.where()}

    def option(self):
        form = self.take('mark')
        self.mark('(')
        if form == 'Plast':
            value = self.expr()
        else:
            value = ('eor',) if self.skips('Peor') else ('literal', self.take('char', 'text'))
        self.mark(')')
        return form, value

    def enum(self):
        name, labels = self.take('name'), []
        self.mark('{')
        while not self.skips('}'):
            label = spelling = self.take('name')
            if self.skips('Pfrom'):
                self.mark('(')
                spelling = self.take('char', 'text')
                self.mark(')')
            labels.append((label, spelling))
            self.skips(',')
        return {'name': name, 'params': [], 'labels': labels}

    def typedef(self):
        of, head, constraint = self.type(), self.head(), None
        if self.skips(':'):
            self.take('name')
            variable = self.take('name')
            self.mark('=>')
            self.mark('{')
            constraint = (variable, self.expr())
            self.mark('}')
        return {**head, 'of': of, 'constraint': constraint}

    def opt(self):
        return {'of': self.type(), **self.head()}

    def type(self):
        optional = bool(self.skips('Popt'))
        name, args = self.take('name'), []
        if self.skips('(:'):
            args = self.separated(lambda: ('eor',) if self.skips('Peor') else self.expr(), ',')
            self.mark(':)')
        return (optional, name, args)

    LEVELS = [('||',), ('&&',), ('==', '!='), ('<', '<=', '>', '>='), ('+', '-'), ('*', '/', '%')]

    def expr(self, level=0):
        if level == len(self.LEVELS):
            return self.unary()
        left = self.expr(level + 1)
        while op := self.skips(*self.LEVELS[level]):
            left = ('bin', op, left, self.expr(level + 1))
        return left

    def unary(self):
        if op := self.skips('-', '!'):
            return ('not' if op == '!' else 'neg', self.unary())
        e = self.atom()
        while True:
            if self.skips('.'):
                e = ('dot', e, self.take('name'))
            elif self.skips('['):
                e = ('index', e, self.expr())
                self.mark(']')
            else:
                return e

    def atom(self):
        kind, value = self.tokens[self.at]
        if kind == 'number':
            return ('num', self.take(kind))
        if kind in ('char', 'text'):
            return ('text', self.take(kind))
        if kind == 'name':
            return ('name', self.take(kind))
        word = self.take('mark')
        if word in ('true', 'false'):
            return ('truth', word == 'true')
        if word != '(':
            self.mark('(')
        if word == 'Pforall':
            variable = self.take('name')
            self.mark('Pin')
            self.mark('[')
            low = self.expr()
            self.mark('..')
            high = self.expr()
            self.mark(']')
            self.mark(':')
            e = ('forall', variable, low, high, self.expr())
        elif word == 'Pis':
            inner = self.expr()
            self.mark(',')
            e = ('is', inner, self.take('name'))
        else:
            assert word in ('(', 'Plen'), word
            e = ('len', self.expr()) if word == 'Plen' else self.expr()
        self.mark(')')
        return e


# Terms: tuples, each with its form first. Expressions too.

class Translation:
    """The terms of a description. A mode is that of a declaration under a mask: what is checked, and what is kept."""

    def __init__(self, text, coding, mode=lambda name: 'both'):
        self.decls, self.coding, self.names, self.mode = Parser(text).description(), coding, [], mode
        self.numbers = {decl['name']: at for at, decl in enumerate(self.decls)}
        self.terms = [self.declared(decl) for decl in self.decls]
        records = [at for at, decl in enumerate(self.decls) if decl['role'] == 'Precord']
        self.head, self.each = None, records[-1]
        last = self.decls[-1]
        if last['role'] == 'Psource':
            if last['form'] == 'Parray':
                self.each = self.numbers[last['of'][1]]
            else:
                head, rest = (part[1][1] for part in last['parts'])
                self.head = self.numbers[head]
                self.each = self.numbers[self.decls[self.numbers[rest]]['of'][1]]

    def meet(self, name):
        if name not in self.names:
            self.names.append(name)
        return name

    # A sort is `num`, `text`, `truth` or a pair: `opt` and the type, or the form and the declaration.
    def sort(self, of):
        optional, name, _ = of
        if optional:
            return ('opt', (False, *of[1:]))
        if name not in self.numbers:
            return 'text' if 'string' in name or 'char' in name else 'num'
        decl = self.decls[self.numbers[name]]
        if decl['form'] == 'Ptypedef':
            return self.sort(decl['of'])
        if decl['form'] == 'Popt':
            return ('opt', decl['of'])
        return (decl['form'], decl)

    def is_record_list(self, decl):
        if decl['form'] != 'Parray' or decl['role'] in ('Precord', 'Precursive') or decl['params'] or decl['size']:
            return False
        if decl['options'] or decl['where'] or decl['of'][0]:
            return False
        inner = self.numbers.get(decl['of'][1])
        return inner is not None and self.decls[inner]['role'] == 'Precord'

    def keeps(self, number):
        return self.mode(self.decls[number]['name']) in ('both', 'set')

    def declared(self, decl):
        self.meet(decl['name'])
        self.checks = self.mode(decl['name']) in ('both', 'check')
        scope = {}
        for of, name in decl['params']:
            self.meet(name)
            scope[name] = (('var', name), self.sort(of))
        unread = decl['role'] == 'Psource' or self.is_record_list(decl)
        return ('Unit',) if unread else getattr(self, 'of_' + decl['form'])(decl, scope)

    def of_Pstruct(self, decl, scope):
        parts, where = [], dict(scope)
        for at, part in enumerate(decl['parts']):
            if part[0] in ('literal', 'eor'):
                parts.append((None, ('Scan', ('Absorb', self.literal(part)))))
                continue
            if part[0] == 'compute':
                _, of, name, e = part
                self.meet(name)
                form = 'text' if of[1] == 'Pstring' else KINDS[of[1][1:]][1:]
                parts.append((name, ('Compute', self.expr(e, scope)[0], form)))
            else:
                name = part[2]
                parts.append((name, self.field(part, scope)))
            scope = {**scope, name: (('var', name), self.sort(part[1]))}
            where[name] = (('part', ('var', '@'), at), self.sort(part[1]))
        return self.guarded(('Struct', parts), '@', decl['where'], where)

    def literal(self, word):
        return ('Eor',) if word[0] == 'eor' else ('Lit', word[1].encode(self.coding))

    def field(self, part, scope):
        _, of, name, e = part
        inner = self.type(of, scope)
        self.meet(name)
        return self.guarded(inner, name, e, {**scope, name: (('var', name), self.sort(of))})

    def guarded(self, inner, name, e, scope):
        if e is None:
            return inner
        self.meet(name)
        e = self.expr(e, scope)[0]
        return ('Guard', inner, name, e) if self.checks else inner

    def arm(self, branch, scope):
        term = self.field(branch, scope)
        return (branch[2], term)

    def of_Punion(self, decl, scope):
        if decl['switch'] is None:
            return ('Alt', [self.arm(branch, scope) for branch in decl['branches']])
        e, cases = decl['switch']
        e = self.expr(e, scope)[0]
        return ('Switch', e, [(key, self.arm(branch, scope)) for key, branch in cases])

    def of_Parray(self, decl, scope):
        elem = self.type(decl['of'], scope)
        self.meet('@')
        inside = {**scope, 'elts': (('var', '@'), ('Parray', decl)), 'length': (('len', ('var', '@')), 'num')}
        size = self.expr(decl['size'], scope)[0] if decl['size'] else None
        sep = last = stop = None
        for form, value in decl['options'].items():
            if form == 'Psep':
                sep = ('Absorb', self.literal(value))
            elif form == 'Pterm':
                stop = self.literal(value)
            else:
                last = self.expr(value, inside)[0]
        return self.guarded(('Seq', elem, sep, size, last, stop, '@'), '@', decl['where'], inside)

    def of_Penum(self, decl, scope):
        return ('Base', ('Enum', self.coding, decl['labels']), [])

    def of_Ptypedef(self, decl, scope):
        inner = self.type(decl['of'], scope)
        if not decl['constraint']:
            return inner
        variable, e = decl['constraint']
        self.meet(variable)
        return self.guarded(inner, variable, e, {**scope, variable: (('var', variable), self.sort(decl['of']))})

    def of_Popt(self, decl, scope):
        return self.optional(lambda: self.type(decl['of'], scope))

    def optional(self, inner):
        self.meet('some')
        self.meet('none')
        return ('Alt', [('some', inner()), ('none', ('Unit',))])

    def type(self, of, scope):
        optional, name, args = of
        if optional:
            return self.optional(lambda: self.type((False, name, args), scope))
        if args == [('eor',)]:
            return ('Base', ('UntilEor', self.coding_of(name)), [])
        args = [self.expr(e, scope)[0] for e in args]
        if name in self.numbers:
            return ('Call', self.numbers[name], args)
        return ('Base', self.base(name), args)

    def coding_of(self, name):
        return {'Pa': 'latin-1', 'Pe': 'cp037'}.get(name[:name.find('_')] if '_' in name else '', self.coding)

    def base(self, name):
        if m := re.fullmatch(r'P(?:b|sbl|sbh)_(u?int\d+)', name):
            return ('Bin', KINDS[m[1]][0], 'high' if name.startswith('Psbh') else 'low')
        if m := re.fullmatch(r'P(u?)(packed|zoned)', name):
            return (m[2].capitalize(), 'unsigned' if m[1] else 'signed')
        m = re.fullmatch(r'P(?:[ae]_)?([a-z]+\d*)(_FW|_in)?', name)
        coding, word, tail = self.coding_of(name), m[1], m[2]
        if word in KINDS:
            return ('IntFw' if tail else 'Int', KINDS[word][0], coding)
        return ({'string': {None: 'Until', '_FW': 'Fixed', '_in': 'Class'}.get(tail),
                 'char': 'Char', 'ip': 'Ip'}[word], coding)

    def expr(self, e, scope):
        form = e[0]
        if form in ('num', 'text', 'truth'):
            return e, form
        if form == 'name':
            return scope[e[1]]
        if form == 'dot':
            whole, (kind, of) = self.expr(e[1], scope)
            if kind == 'opt':
                at = ['some', 'none'].index(e[2])
                return ('arm', whole, at), self.sort(of)
            if kind == 'Pstruct':
                at = [part[2] if part[0] in ('field', 'compute') else None for part in of['parts']].index(e[2])
                return ('part', whole, at), self.sort(of['parts'][at][1])
            branches = self.branches(of)
            at = [branch[2] for branch in branches].index(e[2])
            return ('arm', whole, at), self.sort(branches[at][1])
        if form == 'index':
            whole, (_, decl) = self.expr(e[1], scope)
            return ('elem', whole, self.expr(e[2], scope)[0]), self.sort(decl['of'])
        if form == 'is':
            whole, (kind, of) = self.expr(e[1], scope)
            chosen = (['some', 'none'] if kind == 'opt' else [label for label, _ in of['labels']]
                      if kind == 'Penum' else [branch[2] for branch in self.branches(of)])
            return ('is', whole, chosen.index(e[2])), 'truth'
        if form == 'forall':
            self.meet(e[1])
            low, high = self.expr(e[2], scope)[0], self.expr(e[3], scope)[0]
            inner = {**scope, e[1]: (('var', e[1]), 'num')}
            return ('forall', e[1], low, high, self.expr(e[4], inner)[0]), 'truth'
        if form == 'bin':
            found = ('bin', e[1], self.expr(e[2], scope)[0], self.expr(e[3], scope)[0])
            return found, 'num' if e[1] in '+-*/%' else 'truth'
        return (form, self.expr(e[1], scope)[0]), 'truth' if form == 'not' else 'num'

    def branches(self, decl):
        return decl['branches'] if decl['switch'] is None else [branch for _, branch in decl['switch'][1]]


# Terms as text.

def quoted(data):
    data = data.encode('latin-1') if isinstance(data, str) else data
    return '"' + ''.join(chr(b) if 32 <= b < 127 and b not in (34, 92) else f'\\{b:02x}' for b in data) + '"'


CODINGS = {'latin-1': 'ascii', 'cp037': 'ebcdic'}


def expr_text(e):
    form = e[0]
    if form == 'num':
        return str(e[1])
    if form == 'text':
        return quoted(e[1])
    if form == 'truth':
        return 'true' if e[1] else 'false'
    if form == 'var':
        return e[1]
    if form == 'bin':
        return f'({expr_text(e[2])} {e[1]} {expr_text(e[3])})'
    if form == 'forall':
        return f'Forall({e[1]}; ' + '; '.join(map(expr_text, e[2:])) + ')'
    word = {'part': 'Part', 'arm': 'Arm', 'is': 'IsArm', 'elem': 'Elem', 'len': 'Len', 'neg': 'Neg', 'not': 'Not'}
    return f'{word[form]}(' + '; '.join(str(x) if isinstance(x, int) else expr_text(x) for x in e[1:]) + ')'


def term_text(t):
    form = t[0]
    arms = lambda arms: [f'{name}: {term_text(term)}' for name, term in arms]
    if form == 'Base':
        base, args = t[1], [expr_text(e) for e in t[2]]
        words = [CODINGS.get(word, word) for word in base[1:] if isinstance(word, str)]
        labels = [f'{name} {quoted(spelling)}' for name, spelling in base[2]] if base[0] == 'Enum' else []
        form, held = base[0], [' '.join(words), *labels, *args]
    elif form == 'Lit':
        held = [quoted(t[1])]
    elif form == 'Struct':
        held = [term_text(term) if name is None else f'{name}: {term_text(term)}' for name, term in t[1]]
    elif form == 'Alt':
        held = arms(t[1])
    elif form == 'Switch':
        key = lambda key: 'else' if key is None else quoted(key) if isinstance(key, str) else str(key)
        held = [expr_text(t[1]), *[f'{key(k)} => {arms([arm])[0]}' for k, arm in t[2]]]
    elif form == 'Guard':
        held = [term_text(t[1]), t[2], expr_text(t[3])]
    elif form == 'Seq':
        _, elem, sep, size, last, stop, elts = t
        held = [term_text(elem), *[f'sep {term_text(it)}' for it in [sep] if it],
                *[f'size {expr_text(it)}' for it in [size] if it],
                *[f'last {expr_text(it)}' for it in [last] if it],
                *[f'stop {term_text(it)}' for it in [stop] if it], f'elts {elts}']
    elif form == 'Call':
        held = [str(t[1]), *map(expr_text, t[2])]
    elif form == 'Compute':
        held = [expr_text(t[1]), t[2] if t[2] == 'text' else f'{t[2][0]}..{t[2][1]}']
    elif form in ('Absorb', 'Scan'):
        held = [term_text(t[1])]
    else:
        return form
    return f'{form}(' + '; '.join(held) + ')'


def module_text(module):
    for decl, term in zip(module.decls, module.terms):
        unset = '' if module.mode(decl['name']) in ('both', 'set') else ' unset'
        yield f'{decl["name"]}({", ".join(name for _, name in decl["params"])}) = {term_text(term)}{unset}'
    yield ' '.join(['names', *module.names])
    yield (f'head {module.head} ' if module.head is not None else '') + f'each {module.each}'


# Expressions. A value is a number, a text, a truth or the tuple of a part; None is none.

def bounded(number):
    return number if -2 ** 127 <= number < 2 ** 127 else None


def worth(value):
    return None if value == MISSING else value


def value(e, scope):
    form = e[0]
    if form in ('num', 'text', 'truth'):
        return e[1]
    if form == 'var':
        return worth(scope[e[1]]) if e[1] in scope else None
    if form == 'forall':
        low, high = value(e[2], scope), value(e[3], scope)
        if low is None or high is None or high - low + 1 > 1048576:
            return None
        for at in range(low, high + 1):
            holds = value(e[4], {**scope, e[1]: at})
            if holds is not True:
                return holds
        return True
    if form == 'bin' and e[1] in ('&&', '||'):
        left = value(e[2], scope)
        return left if left is None or left == (e[1] == '||') else value(e[3], scope)
    held = [value(x, scope) for x in e[1:] if isinstance(x, tuple)]
    if None in held:
        return None
    first = held[0]
    if form == 'part':
        return worth(first[1][e[2]])
    if form == 'arm':
        return worth(first[2]) if first[1] == e[2] else None
    if form == 'is':
        return first[1] == e[2]
    if form == 'elem':
        return worth(first[1][held[1]]) if 0 <= held[1] < len(first[1]) else None
    if form == 'len':
        return len(first) if isinstance(first, str) else len(first[1])
    if form == 'neg':
        return bounded(-first)
    if form == 'not':
        return not first
    return operated(e[1], *held)


def operated(op, a, b):
    if op in ('/', '%'):
        if b == 0:
            return None
        cut = abs(a) // abs(b) * (1 if (a < 0) == (b < 0) else -1)
        return bounded(cut) if op == '/' else a - b * cut
    if op in ('+', '-', '*'):
        return bounded(a + b if op == '+' else a - b if op == '-' else a * b)
    return {'==': a == b, '!=': a != b, '<': a < b, '<=': a <= b, '>': a > b, '>=': a >= b}[op]


def argument(e, scope):
    found = value(e, scope)
    return found if isinstance(found, str) or type(found) is int else None


# Readings. A node is its own cause, whether that fails, its begin, its end and its kids.

class Node:
    def __init__(self, begin, end, kids=(), cause=None, fails=False):
        self.begin, self.end, self.kids, self.cause, self.fails = begin, end, list(kids), cause, fails

    def clean(self):
        return self.cause is None and all(kid.clean() for kid in self.kids)

    def text(self, first):
        name = 'Fail' if self.fails else 'Ok' if self.clean() else 'Err'
        count = lambda node: sum(map(count, node.kids)) + (node.cause is not None)
        words = [name, *[self.cause] * (self.cause is not None), str(count(self)),
                 f'{first + self.begin}-{first + self.end}']
        kids = ';'.join(kid.text(first) for kid in self.kids)
        return ' '.join(words) + (f'{{{kids}}}' if kids else '')


def failed(cause, i):
    return MISSING, Node(i, i, cause=cause, fails=True), i


def good(found, i, n):
    return found, Node(i, i + n), i + n


def soft(cause, i, n):
    return MISSING, Node(i, i + n, cause=cause), i + n


def signed_digits(text, low):
    return re.match(r'[+-]?\d+' if low < 0 else r'\+?\d+', text, re.A)


def class_pattern(text):
    """The set of points of a class text, or None."""
    points, at = set(), 0
    while at < len(text):
        if at + 2 < len(text) and text[at + 1] == '-':
            if text[at] > text[at + 2]:
                return None
            points |= set(map(chr, range(ord(text[at]), ord(text[at + 2]) + 1)))
            at += 3
        else:
            points.add(text[at])
            at += 1
    return points or None


def read_base(base, args, data, i):
    form = base[0]
    wanted = {'IntFw': int, 'Until': str, 'Fixed': int, 'Class': str, 'Packed': int, 'Zoned': int}
    if form == 'Bin':
        args = args or [int(base[1][1:]) // 8]
    if len(args) != (form in wanted or form == 'Bin') or any(type(a) is not wanted.get(form, int) for a in args):
        return failed('BAD_PARAM', i)
    arg = args[0] if args else None
    rest = data[i:]
    if form == 'Bin':
        low, high = RANGES[base[1]]
        if not 1 <= arg <= 8:
            return failed('BAD_PARAM', i)
        if len(rest) < arg:
            return failed('WIDTH', i)
        number = int.from_bytes(rest[:arg], 'big' if base[2] == 'high' else 'little', signed=low < 0)
        return good(number, i, arg) if low <= number <= high else soft('RANGE', i, arg)
    if form in ('Packed', 'Zoned'):
        width = arg // 2 + 1 if form == 'Packed' else arg
        if not 1 <= arg <= 18:
            return failed('BAD_PARAM', i)
        if len(rest) < width:
            return failed('WIDTH', i)
        read = decimals.packed if form == 'Packed' else decimals.zoned
        found = read(rest[:width].hex().upper(), arg, base[1] == 'signed')
        return soft(found, i, width) if isinstance(found, str) else good(found, i, width)
    rest = rest.decode(base[1] if form not in ('Int', 'IntFw') else base[2])
    if form == 'Int':
        low, high = RANGES[base[1]]
        m = signed_digits(rest, low)
        if not m:
            return failed('INVALID', i)
        return good(int(m[0]), i, m.end()) if low <= int(m[0]) <= high else soft('RANGE', i, m.end())
    if form == 'IntFw':
        low, high = RANGES[base[1]]
        if arg < 1:
            return failed('BAD_PARAM', i)
        if len(rest) < arg:
            return failed('WIDTH', i)
        field = rest[:arg].lstrip(' ')
        m = signed_digits(field, low)
        if not m or m.end() != len(field):
            return soft('INVALID', i, arg)
        return good(int(field), i, arg) if low <= int(field) <= high else soft('RANGE', i, arg)
    if form == 'Until':
        if len(arg) != 1:
            return failed('BAD_PARAM', i)
        rest = rest.split(arg)[0]
        return good(rest, i, len(rest))
    if form == 'UntilEor':
        return good(rest, i, len(rest))
    if form == 'Fixed':
        if arg < 0:
            return failed('BAD_PARAM', i)
        return good(rest[:arg], i, arg) if len(rest) >= arg else failed('WIDTH', i)
    if form == 'Class':
        points, n = class_pattern(arg), 0
        if points is None:
            return failed('BAD_PARAM', i)
        while n < len(rest) and rest[n] in points:
            n += 1
        return good(rest[:n], i, n) if n else failed('INVALID', i)
    if form == 'Char':
        return good(rest[0], i, 1) if rest else failed('WIDTH', i)
    if form == 'Ip':
        m = re.match(r'(\d+)\.(\d+)\.(\d+)\.(\d+)', rest, re.A)
        if not m or any(len(x) > 3 or int(x) > 255 for x in m.groups()):
            return failed('INVALID', i)
        return good(int.from_bytes(bytes(map(int, m.groups())), 'big'), i, m.end())
    begun = [spelling for _, spelling in base[2] if rest.startswith(spelling)]
    if not begun:
        return failed('ENUM', i)
    best = max(begun, key=len)
    return good(('#', [spelling for _, spelling in base[2]].index(best)), i, len(best))


class Slow(Exception):
    """A record takes more steps than it may."""


class Reader:
    """Reads a record. Where a literal is looked for, at most `scan` bytes are passed over. Nothing is remembered, so nested choices
    may take long: `most` is how many steps a record may take."""
    most = float('inf')

    def __init__(self, module, data, scan):
        self.module, self.data, self.scan, self.steps = module, data, scan, 0

    def read(self, k, t, scope, i):
        self.steps += 1
        if self.steps > self.most:
            raise Slow
        return getattr(self, t[0])(k, t, scope, i)

    def clean(self, reading):
        return reading[1].clean()

    def Unit(self, k, t, scope, i):
        return good(UNIT, i, 0)

    def Base(self, k, t, scope, i):
        args = [argument(e, scope) for e in t[2]]
        return failed('BAD_PARAM', i) if None in args else read_base(t[1], args, self.data, i)

    def Lit(self, k, t, scope, i):
        stands = self.data.startswith(t[1], i)
        return good(UNIT, i, len(t[1])) if stands else failed('MISSING_LITERAL', i)

    def Eor(self, k, t, scope, i):
        return good(UNIT, i, 0) if i == len(self.data) else failed('MISSING_EOR', i)

    def Struct(self, k, t, scope, i):
        values, kids, j = [], [], i
        for name, term in t[1]:
            found, node, j = self.read(k, term, scope, j)
            values.append(found)
            kids.append(node)
            if name is not None:
                scope = {**scope, name: found}
        return ('T', values), Node(i, j, kids), j

    def Alt(self, k, t, scope, i):
        for at, (_, term) in enumerate(t[1]):
            found, node, j = self.read(k, term, scope, i)
            if node.clean():
                return ('B', at, found), Node(i, j, [node]), j
        return failed('UNION_MATCH', i)

    def Switch(self, k, t, scope, i):
        key, chosen = argument(t[1], scope), None
        for at, (wanted, _) in enumerate(t[2]):
            if key is not None and wanted is not None and type(wanted) is type(key) and wanted == key:
                chosen = at
                break
        if chosen is None and key is not None:
            chosen = next((at for at, (wanted, _) in enumerate(t[2]) if wanted is None), None)
        if chosen is None:
            return failed('SWITCH', i)
        found, node, j = self.read(k, t[2][chosen][1][1], scope, i)
        return ('B', chosen, found), Node(i, j, [node]), j

    def Guard(self, k, t, scope, i):
        found, node, j = self.read(k, t[1], scope, i)
        if node.clean() and value(t[3], {**scope, t[2]: found}) is not True:
            node = Node(node.begin, node.end, node.kids, 'CONSTRAINT')
        return found, node, j

    def Seq(self, k, t, scope, i):
        _, elem, sep, size, last, stop, elts = t
        if size is not None:
            size = argument(size, scope)
            if type(size) is not int or size < 0:
                return failed('ARRAY_BOUND', i)
        values, kids, j, own = [], [], i, None
        while True:
            if size is not None and len(values) == size:
                break
            if values and last is not None and value(last, {**scope, elts: ('A', list(values))}) is True:
                break
            if (stop is not None and self.clean(self.read(k, stop, scope, j))) or j == len(self.data):
                own = 'ARRAY_SIZE' if size is not None else None
                break
            begin = j
            if values and sep is not None:
                _, node, begin = self.read(k, sep, scope, j)
                if not node.clean():
                    own = 'ARRAY_SEP'
                    break
            found, node, end = self.read(k, elem, scope, begin)
            if node.fails and end == begin:
                own = 'ARRAY_ELEM'
                break
            if values and end == j:
                own = 'ARRAY_STALL'
                break
            values.append(found)
            kids.append(node)
            j = end
        return ('A', values), Node(i, j, kids, own), j

    def Call(self, k, t, scope, i):
        if k == 0:
            return failed('DEPTH', i)
        args = [argument(e, scope) for e in t[2]]
        if None in args:
            return failed('BAD_PARAM', i)
        names = [name for _, name in self.module.decls[t[1]]['params']]
        return self.read(k - 1, self.module.terms[t[1]], dict(zip(names, args)), i)

    def Compute(self, k, t, scope, i):
        found = argument(t[1], scope)
        fits = isinstance(found, str) if t[2] == 'text' else type(found) is int and t[2][0] <= found <= t[2][1]
        return good(found, i, 0) if fits else failed('COMPUTE', i)

    def Absorb(self, k, t, scope, i):
        _, node, j = self.read(k, t[1], scope, i)
        return (UNIT if node.clean() else MISSING), node, j

    def Scan(self, k, t, scope, i):
        for at in range(i, min(len(self.data), i + self.scan) + 1):
            found, node, j = self.read(k, t[1], scope, at)
            if node.clean():
                if at > i:
                    node = Node(i, node.end, node.kids, 'SKIPPED')
                return found, node, j
        return failed(self.read(k, t[1], scope, i)[1].cause or 'MISSING_LITERAL', i)


def arms(t):
    """The arms of a union or of a switched one: each a name and a term."""
    return t[1] if t[0] == 'Alt' else [arm for _, arm in t[2]]


def scalar(t, found):
    """A number or text as lines and reports show it: of an enum the label, of an address its four numbers."""
    if t[0] == 'Base' and t[1][0] == 'Enum':
        return t[1][2][found[1]][0]
    if t[0] == 'Base' and t[1][0] == 'Ip':
        return '.'.join(map(str, found.to_bytes(4, 'big')))
    return found


def erased(module, t, found, kept):
    """A value without the numbers, texts and labels of declarations that keep none."""
    if found in (MISSING, UNIT):
        return found
    if t[0] == 'Call':
        return erased(module, module.terms[t[1]], found, module.keeps(t[1]))
    if t[0] in ('Guard', 'Scan', 'Absorb'):
        return erased(module, t[1], found, kept)
    if t[0] == 'Struct':
        return ('T', [erased(module, term, part, kept) for (_, term), part in zip(t[1], found[1])])
    if t[0] in ('Alt', 'Switch'):
        return ('B', found[1], erased(module, arms(t)[found[1]][1], found[2], kept))
    if t[0] == 'Seq':
        return ('A', [erased(module, t[1], element, kept) for element in found[1]])
    return found if kept else MISSING


def value_text(found):
    if isinstance(found, str):
        return quoted(found)
    if isinstance(found, int):
        return str(found)
    if found[0] == '#':
        return f'#{found[1]}'
    if found[0] == 'B':
        return f'{found[1]}:{value_text(found[2])}'
    if found[0] in 'TA':
        return '(['[found[0] == 'A'] + ','.join(map(value_text, found[1])) + ')]'[found[0] == 'A']
    return found[0]


class Row:
    def __init__(self, module, words, scan=2 ** 24):
        number, mark, first, data = words.split(' ', 3)
        self.module, self.number, self.first = module, int(number), int(first)
        self.each = module.head if self.number == 0 and module.head is not None else module.each
        if mark in ('long', 'broken'):
            self.value, self.next = MISSING, 0
            self.node = Node(0, int(data) - self.first, cause=f'RECORD_{mark.upper()}', fails=True)
            return
        data = data[1:-1].encode() if data.startswith('"') else bytes.fromhex(data)
        value, node, self.next = Reader(module, data, scan).Call(128, ('Call', self.each, []), {}, 0)
        self.value = erased(module, ('Call', self.each, []), value, True)
        kids = [node, *[Node(self.next, len(data), cause='EXTRA_BEFORE_EOR')] * (self.next < len(data))]
        self.node = Node(0, len(data), kids, 'RECORD_SHORT' if mark == 'short' else None)

    def text(self):
        return f'{value_text(self.value)} | {self.node.text(self.first)} | {self.first + self.next}'

    def json(self):
        """The line of JSON, its keys in the order of their bytes."""
        term = ('Call', self.each, [])
        body, faults = self.node.kids[:1], self.fault('.', self.node)
        for node in body:
            faults += self.faults(term, self.value, '', node)
        for node in self.node.kids[1:]:
            faults += self.fault('.', node)
        words, span = self.node.text(0).split('{')[0].split(' '), self.span(self.node)
        line = {'class': words[0], 'faults': faults, 'nerr': int(words[-2]), 'next': self.first + self.next,
                'record': self.number, 'span': span, 'value': self.shown(term, self.value)}
        return json.dumps(line, ensure_ascii=False, separators=(',', ':'), sort_keys=True)

    def span(self, node):
        return [self.first + node.begin, self.first + node.end]

    def fault(self, at, node):
        return [{'at': at, 'cause': node.cause, 'span': self.span(node)}] if node.cause else []

    def inner(self, t):
        """The term below its wrappers and calls."""
        while t[0] in ('Guard', 'Scan', 'Absorb', 'Call'):
            t = self.module.terms[t[1]] if t[0] == 'Call' else t[1]
        return t

    def faults(self, t, found, at, node):
        t, faults = self.inner(t), self.fault(at or '$', node)
        if t[0] == 'Struct' and found != MISSING:
            for number, ((name, term), part, kid) in enumerate(zip(t[1], found[1], node.kids)):
                below = name or f'#{number}'
                faults += self.faults(term, part, f'{at}.{below}' if at else below, kid)
        elif t[0] in ('Alt', 'Switch') and found != MISSING:
            name, term = arms(t)[found[1]]
            faults += self.faults(term, found[2], f'{at}.{name}' if at else name, node.kids[0])
        elif t[0] == 'Seq' and found != MISSING:
            for number, (element, kid) in enumerate(zip(found[1], node.kids)):
                faults += self.faults(t[1], element, f'{at or "$"}[{number}]', kid)
        return faults

    def shown(self, t, found):
        t = self.inner(t)
        if found in (MISSING, UNIT):
            return None
        if t[0] == 'Struct':
            return {name: self.shown(term, part) for (name, term), part in zip(t[1], found[1]) if name}
        if t[0] in ('Alt', 'Switch'):
            name, term = arms(t)[found[1]]
            return {name: self.shown(term, found[2])}
        if t[0] == 'Seq':
            return [self.shown(t[1], element) for element in found[1]]
        return scalar(t, found)


def nested(depth):
    types = [f'Ptypedef t{at} t{at + 1};' for at in range(1, depth)]
    return ' '.join(['Ptypedef Puint8 t1;', *types, f'Precord Pstruct r {{ t{depth} v; }};'])


def modes(mask):
    """The mode of each declaration by its name. Of equal names in a mask the first counts."""
    every, *others = mask.split(',')
    named = dict(reversed([item.split(':') for item in others]))
    return lambda name: named.get(name, every)


def unknown_item(module, mask):
    """The first item of a mask that names no declaration, from 1, or None."""
    items = enumerate(mask.split(',')[1:], 1)
    return next((number for number, item in items if item.split(':')[0] not in module.numbers), None)


def told(lines):
    """The lines of a table, and below each what must be told of it."""
    module = text = None
    for line in lines:
        yield line
        word, _, rest = line.partition(' ')
        if word in ('ascii', 'ebcdic'):
            text = rest
            module = Translation(text, 'latin-1' if word == 'ascii' else 'cp037')
        elif word == 'mask' and unknown_item(module, rest) is not None:
            yield f'    mask item {unknown_item(module, rest)}'
        elif word == 'mask':
            module = Translation(text, module.coding, modes(rest))
        elif word == 'nest':
            module = Translation(nested(int(rest)), 'latin-1')
        elif word == 'terms':
            yield from ('    ' + text for text in module_text(module))
        elif word == 'json':
            yield '    ' + Row(module, rest).json()
        elif line and not line.startswith('#'):
            yield '    ' + Row(module, line).text()


def main():
    sys.setrecursionlimit(10000)
    wrong = 0
    for name in ('rows.txt', 'modules.txt', 'lines.txt', 'masks.txt'):
        with open(os.path.join(TABLES, name), encoding='utf-8') as it:
            table = it.read().split('\n')[:-1]
        found = list(told(line for line in table if not line.startswith('    ')))
        if sys.argv[1:] != ['--check']:
            print('\n'.join(found))
            continue
        differ = [(at, *pair) for at, pair in enumerate(zip(table, found), 1) if pair[0] != pair[1]]
        for at, one, other in differ[:9]:
            print(f'{name}: line {at}\n  table:  {one}\n  reader: {other}')
        print(f'{name}: {len(table)} lines, {len(found)} by the reader, {len(differ)} differ')
        wrong += bool(differ) or len(table) != len(found)
    return int(bool(wrong))


if __name__ == '__main__':
    sys.exit(main())
