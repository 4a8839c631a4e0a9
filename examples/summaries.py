"""Summaries a second time: the report of an input's rows, as docs/FORMATS.md has it, by tables.py. `reader.py summary DESC`
writes it."""
import collections
import json

import tables

TRACKED, TOP = 1000, 10


class Part:
    """The nodes of one part: how many are good and bad, and the samples of the good ones in order."""

    def __init__(self, place):
        self.place, self.good, self.bad, self.samples = place, 0, 0, []

    def add(self, node, sample):
        self.good += node.clean()
        self.bad += not node.clean()
        self.samples += [sample] if node.clean() and sample is not None else []

    def lines(self, top):
        yield f'{self.place}: good {self.good} bad {self.bad} pct {cut(100 * self.bad, max(1, self.good + self.bad))}'
        if self.samples and isinstance(self.samples[0], int):
            average = cut(sum(self.samples), len(self.samples))
            yield f'  min {min(self.samples)} max {max(self.samples)} avg {average}'
        if self.samples:
            counts = collections.Counter(self.samples)
            tracked = list(counts)[:TRACKED]
            yield f'  values {len(tracked)} others {sum(counts[sample] for sample in list(counts)[TRACKED:])}'
            for sample in sorted(tracked, key=lambda sample: -counts[sample])[:top]:
                yield f'  {counts[sample]} {json.dumps(sample, ensure_ascii=False)}'


def cut(number, of):
    """A quotient with three decimals, cut."""
    thousandths = abs(number) * 1000 // of
    return f'{"-" if number < 0 else ""}{thousandths // 1000}.{thousandths % 1000:03}'


def sample(t, found):
    """What a value gives to its part, or None: a number, or a text."""
    if found in (tables.MISSING, tables.UNIT) or t[0] == 'Struct':
        return None
    if t[0] in ('Alt', 'Switch'):
        return tables.arms(t)[found[1]][0]
    return len(found[1]) if t[0] == 'Seq' else tables.scalar(t, found)


def below(t, place):
    """The kids of a term that are parts: which of its kids, the term and the place."""
    named = lambda name: f'{place}.{name}' if place != '$' else name
    if t[0] == 'Struct':
        return [(at, term, named(name)) for at, (name, term) in enumerate(t[1]) if name is not None]
    if t[0] in ('Alt', 'Switch'):
        return [(at, term, named(name)) for at, (name, term) in enumerate(tables.arms(t)) if term != ('Unit',)]
    return [(None, t[1], f'{place}[*]')] if t[0] == 'Seq' else []


class Summary:
    """The parts of one record type, in document order."""

    def __init__(self, module, number):
        self.module, self.number, self.parts = module, number, {'.': Part('.')}
        self.list(('Call', number, []), '$', ())

    def inner(self, t, way):
        """The term behind wrappers and calls, or None for one that comes back within itself; the declarations on the way."""
        while t[0] in ('Guard', 'Scan', 'Absorb', 'Call'):
            if t[0] == 'Call':
                if t[1] in way:
                    return None, way
                way = (*way, t[1])
            t = self.module.terms[t[1]] if t[0] == 'Call' else t[1]
        return t, way

    def list(self, t, place, way):
        self.parts[place] = Part(place)
        t, way = self.inner(t, way)
        for _, term, at in below(t, place) if t else []:
            self.list(term, at, way)

    def add(self, row):
        self.parts['.'].add(row.node, None)
        for node in row.node.kids[:1]:
            self.count(('Call', self.number, []), '$', (), row.value, node)

    def count(self, t, place, way, found, node):
        t, way = self.inner(t, way)
        self.parts[place].add(node, sample(t, found) if t else None)
        if t is None or found == tables.MISSING:
            return
        for at, term, where in below(t, place):
            if t[0] == 'Struct':
                self.count(term, where, way, found[1][at], node.kids[at])
            elif t[0] == 'Seq':
                for value, kid in zip(found[1], node.kids):
                    self.count(term, where, way, value, kid)
            elif found[1] == at:
                self.count(term, where, way, found[2], node.kids[0])


def report(module, rows, top=TOP):
    """The lines of the report."""
    head = Summary(module, module.head) if module.head is not None else None
    each = Summary(module, module.each)
    for row in rows:
        (head if head and row.number == 0 else each).add(row)
    for summary in [head, each] if head else [each]:
        yield f'type {module.decls[summary.number]["name"]}'
        for part in summary.parts.values():
            yield from part.lines(top)
