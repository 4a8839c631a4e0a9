"""What `print` writes a second time, as docs/FORMATS.md has it, by tables.py: the canonical bytes of a value, and whether they read
back. `reader.py print DESC` writes them."""
import tables

DEEPEST, WIDEST = 128, 2 ** 24


def spelled(base, args, value):
    """The canonical bytes of a value of a base type, or None."""
    form, arg = base[0], args[0] if args else None
    if form == 'Enum':
        return base[2][value[1]][1].encode(base[1]) if isinstance(value, tuple) and value[0] == '#' else None
    if form in ('Int', 'IntFw', 'Bin', 'Packed', 'Zoned', 'Ip'):
        return number_spelled(base, arg, value) if type(value) is int else None
    fits = {'Until': type(arg) is str and len(arg) == 1, 'Fixed': type(arg) is int and 0 <= arg == len(value) <= WIDEST,
            'Class': type(arg) is str and set(value) <= (tables.class_pattern(arg) or set()) and value != '',
            'Char': len(value) == 1, 'UntilEor': True}
    return value.encode(base[1]) if fits[form] else None


def number_spelled(base, arg, number):
    """The canonical bytes of a number, or None where it doesn't fit."""
    form, sign, digits = base[0], '-' * (number < 0), str(abs(number))
    if form == 'Ip':
        return '.'.join(map(str, number.to_bytes(4, 'big'))).encode(base[1]) if 0 <= number < 2 ** 32 else None
    if form in ('Packed', 'Zoned'):
        if type(arg) is not int or not len(digits) <= arg <= 18 or arg < 1 or number < 0 and base[1] == 'unsigned':
            return None
        digits, mark = digits.rjust(arg, '0'), 'F' if base[1] == 'unsigned' else 'D' if number < 0 else 'C'
        packed = '0' * (arg % 2 == 0) + digits + mark
        return bytes.fromhex(packed if form == 'Packed' else ''.join('F' + d for d in digits[:-1]) + mark + digits[-1])
    low, high = tables.RANGES[base[1]]
    if not low <= number <= high:
        return None
    if form == 'Bin':
        size = int(base[1][1:]) // 8 if arg is None else arg
        least, most = (-2 ** (8 * size - 1), 2 ** (8 * size - 1)) if low < 0 else (0, 2 ** (8 * size))
        fits = type(size) is int and 1 <= size <= 8 and least <= number < most
        return number.to_bytes(size, 'big' if base[2] == 'high' else 'little', signed=low < 0) if fits else None
    if form == 'Int':
        return (sign + digits).encode(base[2])
    fits = type(arg) is int and len(sign + digits) <= arg <= WIDEST
    return (sign + digits.rjust(arg - len(sign), '0')).encode(base[2]) if fits else None


def canonical(module, depth, t, scope, found):
    """The canonical bytes of a value of a term, or None."""
    below = lambda term, value, scope=scope: canonical(module, depth, term, scope, value)
    form = t[0]
    if form == 'Base':
        args = [tables.argument(e, scope) for e in t[2]]
        return None if None in args or found == tables.MISSING else spelled(t[1], args, found)
    if form == 'Lit':
        return t[1]
    if form in ('Unit', 'Eor', 'Compute'):
        return None if found == tables.MISSING else b''
    if form in ('Guard', 'Scan', 'Absorb'):
        return below(t[1], found)
    if found == tables.MISSING:
        return None
    if form == 'Call':
        args = [tables.argument(e, scope) for e in t[2]]
        names = [name for _, name in module.decls[t[1]]['params']]
        inner = dict(zip(names, args))
        return None if depth == 0 or None in args else canonical(module, depth - 1, module.terms[t[1]], inner, found)
    if form in ('Alt', 'Switch'):
        return below(tables.arms(t)[found[1]][1], found[2])
    if form == 'Seq':
        between = below(t[2], tables.UNIT) if t[2] is not None else b''
        return joined([below(t[1], element) for element in found[1]], between)
    parts = []
    for (name, term), value in zip(t[1], found[1]):
        parts.append(below(term, value, scope))
        scope = {**scope, name: value} if name is not None else scope
    return joined(parts, b'')


def joined(parts, between):
    return None if None in parts else between.join(parts)


def framed(discipline, data):
    """The bytes of an input of one record, or None."""
    kind, _, number = discipline.partition(':')
    if kind == 'rdw':
        return (len(data) + 4).to_bytes(2, 'big') + b'\0\0' + data if len(data) + 4 < 2 ** 16 else None
    return data + (bytes([int(number, 16)]) if kind == 'term' else b'\n' if kind == 'nl' else b'')


def printed(module, rows, discipline, frames, scan):
    """The bytes that are printed, and the lines that name other records. `frames` cuts an input."""
    out, notes = b'', []
    for row in rows:
        if not row.node.clean():
            notes.append(f'pads: record {row.number} not clean')
            continue
        data = canonical(module, DEEPEST, ('Call', row.each, []), {}, row.value)
        whole = framed(discipline, data)
        back = frames(whole) if whole is not None else []
        again = tables.Row(module, f'{row.number} plain 0 {data.hex()}', scan)
        if [(mark, held) for mark, _, held in back] == [('plain', data)] and again.node.clean() and again.value == row.value:
            out += whole
        else:
            notes.append(f'pads: record {row.number} ambiguous')
    return out, notes
