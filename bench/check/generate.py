#!/usr/bin/env python3
"""Writes a description with N of something, each with a name of its own.

    generate.py KIND N > FILE

    declarations   structs, each with a field of the type declared before it
    later          structs, each with a field of the type declared behind it
    unknown        structs, each with a field of a type that is declared nowhere
    one_name       structs that all have one name
    fields         a struct of so many fields
    fields_again   a struct whose fields all have one name
    labels         an enum of so many labels
    spellings      an enum whose labels have a spelling beside their name
    options        an array with so many options
    cases          a union that chooses among so many cases
    choices        an enum of so many labels, and as many `Pis`, from its last label to its first
    members        a struct of so many fields, and as many `.name`, from its last field to its first
    few_choices    an enum of 4,000 labels, and so many `Pis` of them
    few_members    a struct of 4,000 fields, and so many `.name` of them

From 4,097 on a description breaks the rule on counts, but for the last two kinds, which keep every rule and are resolved
too. It is read to its end all the same, since an earlier place may break another rule.
"""
import sys

DIGITS = '0123456789abcdefghijklmnopqrstuvwxyz'
RECORD = 'Precord Pstruct r { Pip f; };\n'


def name(number):
    """A letter and four digits."""
    text = ''
    for _ in range(4):
        number, digit = divmod(number, 36)
        text = DIGITS[digit] + text
    return 'a' + text


def declarations(count):
    yield RECORD
    yield 'Pstruct %s{Pip f;};\n' % name(0)
    for n in range(1, count):
        yield 'Pstruct %s{%s f;};\n' % (name(n), name(n - 1))


def later(count):
    yield RECORD
    for n in range(count):
        yield 'Pstruct %s{%s f;};\n' % (name(n), name(n + 1))


def unknown(count):
    yield RECORD
    for n in range(count):
        yield 'Pstruct %s{b%s f;};\n' % (name(n), name(n)[1:])


def one_name(count):
    yield RECORD
    for _ in range(count):
        yield 'Pstruct a{Pip f;};\n'


def fields(count):
    yield 'Precord Pstruct r {\n'
    for n in range(count):
        yield 'Pip %s;\n' % name(n)
    yield '};\n'


def fields_again(count):
    yield 'Precord Pstruct r {\n'
    for _ in range(count):
        yield 'Pip a;\n'
    yield '};\n'


def labels(count):
    yield RECORD
    yield 'Penum e {\n' + ',\n'.join(name(n) for n in range(count)) + '\n};\n'


def spellings(count):
    yield RECORD
    yield 'Penum e {\n' + ',\n'.join('%s Pfrom("%s")' % (name(n), DIGITS[n % 36] + name(n)) for n in range(count)) + '\n};\n'


def options(count):
    yield RECORD
    yield 'Parray e {\nPip[] :\n' + ' &&\n'.join(("Psep('|')", 'Pterm(Peor)', 'Plast(true)')[n % 3] for n in range(count)) + ';\n};\n'


def cases(count):
    yield RECORD
    yield 'Punion u(:Puint32 k:) {\nPswitch (k) {\n'
    for n in range(count):
        yield 'Pcase %d: Pip %s;\n' % (n, name(n))
    yield '}\n};\n'


FEW = 4_000
AT_ONCE = 200


def asked(uses):
    """A record with conditions on its first field, so many to a condition that none is too high."""
    yield 'Precord Pstruct r {\ne k;\n'
    for start in range(0, len(uses), AT_ONCE):
        yield 'Pip %s : %s;\n' % (name(start), '&&'.join(uses[start:start + AT_ONCE]))
    yield '};\n'


def an_enum(count):
    yield 'Penum e {\n' + ',\n'.join(name(n) for n in range(count)) + '\n};\n'


def a_struct(count):
    yield 'Pstruct e {\n' + ''.join('Pip %s;\n' % name(n) for n in range(count)) + '};\n'


def choices(count):
    yield from an_enum(count)
    yield from asked(['Pis(k,%s)' % name(count - 1 - n) for n in range(count)])


def members(count):
    yield from a_struct(count)
    yield from asked(['k.%s<1' % name(count - 1 - n) for n in range(count)])


def few_choices(count):
    yield from an_enum(FEW)
    yield from asked(['Pis(k,%s)' % name(FEW - 1 - n % FEW) for n in range(count)])


def few_members(count):
    yield from a_struct(FEW)
    yield from asked(['k.%s<1' % name(FEW - 1 - n % FEW) for n in range(count)])


KINDS = (declarations, later, unknown, one_name, fields, fields_again, labels, spellings, options, cases, choices, members, few_choices, few_members)


def main():
    kinds = {kind.__name__: kind for kind in KINDS}
    for text in kinds[sys.argv[1]](int(sys.argv[2])):
        sys.stdout.write(text)


if __name__ == '__main__':
    main()
