"""Queries a second time: the nodes of a path in a record, as docs/QUERY.md has them, by tables.py. The path and the filter are
taken to be accepted; `reader.py query DESC PATH [EXPR]` writes the lines."""
import json

import tables


def steps_of(text):
    """The steps of a path: names, numbers, and `*` for all elements."""
    tokens = iter(tables.tokens_of(text)[:-1])
    first = next(tokens)
    found = [] if first == ('mark', '$') else [first[1]]
    for _, mark in tokens:
        found.append(next(tokens)[1])
        if mark == '[':
            next(tokens)
    return found


def names_below(module, of):
    """What a name leads to from a node of a declared type: the name's number, and the type there (none: Unit)."""
    kind, decl = module.sort(of)
    if kind == 'opt':
        return {'some': (0, decl), 'none': (1, None)}
    parts = decl['parts'] if kind == 'Pstruct' else module.branches(decl)
    return {part[2]: (at, part[1]) for at, part in enumerate(parts) if part[0] in ('field', 'compute')}


class Spot:
    """A node of a row, with its declared type, its term and its value."""

    def __init__(self, row, of, term, found, node):
        self.row, self.of, self.term, self.found, self.node = row, of, row.inner(term), found, node

    def below(self, step):
        """The nodes by a step, in order."""
        if self.found == tables.MISSING:
            return
        if isinstance(step, int) or step == '*':
            of = self.row.module.sort(self.of)[1]['of']
            for at, (found, node) in enumerate(zip(self.found[1], self.node.kids)):
                if step in ('*', at):
                    yield Spot(self.row, of, self.term[1], found, node)
            return
        at, of = names_below(self.row.module, self.of)[step]
        if self.term[0] == 'Struct':
            yield Spot(self.row, of, self.term[1][at][1], self.found[1][at], self.node.kids[at])
        elif self.found[1] == at:
            yield Spot(self.row, of, tables.arms(self.term)[at][1], self.found[2], self.node.kids[0])

    def is_kept(self, e):
        """Whether a filter keeps it: where it has no value, or the filter has none, it is left out."""
        if e is None:
            return True
        meant, _ = self.row.module.expr(e, {'it': (('var', 'it'), self.row.module.sort(self.of))})
        return tables.value(meant, {'it': self.found}) is True

    def json(self):
        words = self.node.text(0).split('{')[0].split(' ')
        line = {'class': words[0], 'nerr': int(words[-2]), 'record': self.row.number, 'span': self.row.span(self.node),
                'value': self.row.shown(self.term, self.found)}
        return json.dumps(line, ensure_ascii=False, separators=(',', ':'), sort_keys=True)


def queried(row, path, e):
    """The lines of the nodes of a path in a row. A header has none, nor has a record that wasn't read."""
    module, kids = row.module, row.node.kids[:1]
    if module.head is not None and row.number == 0:
        return
    spots = [Spot(row, (False, module.decls[row.each]['name'], []), ('Call', row.each, []), row.value, node) for node in kids]
    for step in steps_of(path):
        spots = [below for spot in spots for below in spot.below(step)]
    yield from (spot.json() for spot in spots if spot.is_kept(e))
