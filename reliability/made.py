"""Random descriptions whose names depend on one another, inputs that suit them, and both with faults, for `compare`."""
import sys
from pathlib import Path

TOP = Path(__file__).resolve().parent.parent
sys.path += [str(TOP / "examples"), str(TOP / "tools")]
import grammar                                             # noqa: E402
import tables                                              # noqa: E402

LETTERS, MARKS = "abcXYZ019", ",;|/:-. "
NUMBERS = [f"{sign}int{bits}" for sign in ("", "u") for bits in (8, 16, 32, 64)]
EDGES = [0, 1, 2, 3, 7, 10, 127, 128, 255, 256, 32767, 65535, 2 ** 31, 2 ** 32, 2 ** 63, 2 ** 64]
OPERATORS = {"||": 0, "&&": 1, "==": 2, "!=": 2, "<": 3, "<=": 3, ">": 3, ">=": 3, "+": 4, "-": 4, "*": 5, "/": 5, "%": 5}
UNARY, ATOM = 6, 7


# ---- Descriptions ----------------------------------------------------------------------------------

class Declared:
    """A declared type: its form, the sorts of its parameters, and what names lead to from its values."""

    def __init__(self, name, form):
        self.name, self.form, self.params, self.members, self.element, self.is_record = name, form, [], {}, None, False


class Writer:
    """Writes descriptions. A scope is a dictionary from names to sorts: `num`, `text`, `truth`, a pair of `opt` and a sort, or a declared
    type. An expression is its text and how strongly it binds."""

    def __init__(self, dice, binary):
        self.dice, self.binary, self.types, self.lines = dice, binary, [], []

    def chance(self, share):
        return self.dice.random() < share

    # Expressions.

    def bound(self, e, least):
        text, level = e
        return f"({text})" if level < least or self.chance(0.05) else text

    def operation(self, op, left, right):
        level = OPERATORS[op]
        return f"{self.bound(left, level)} {op} {self.bound(right, level + 1)}", level

    def paths(self, scope, depth=2):
        """Expressions of names and what they lead to, each with its sort."""
        found = [((name, ATOM), sort) for name, sort in scope.items()]
        for (text, _), sort in list(found) if depth else []:
            found += self.below(text, sort, scope, depth)
        return found

    def below(self, text, sort, scope, depth):
        found = []
        if isinstance(sort, tuple):
            found.append(((f"{text}.some", ATOM), sort[1]))
        elif isinstance(sort, Declared) and sort.form == "Parray":
            found.append(((f"{text}[{self.dice.randrange(3)}]", ATOM), sort.element))
        elif isinstance(sort, Declared):
            found += [((f"{text}.{name}", ATOM), of) for name, of in sort.members.items() if of is not None]
        if depth > 1:
            found += [more for (word, _), of in list(found) for more in self.below(word, of, scope, depth - 1)]
        return found

    def expr(self, sort, scope, depth=3):
        """An expression of a sort."""
        named = [e for e, of in self.paths(scope) if of == sort]
        if named and self.chance(0.5):
            return self.dice.choice(named)
        return getattr(self, sort)(scope, depth)

    def num(self, scope, depth):
        if depth == 0 or self.chance(0.35):
            number = self.dice.choice(EDGES) if self.chance(0.2) else self.dice.randrange(6)
            return (hex(number) if self.chance(0.1) else str(number)), ATOM
        if self.chance(0.15):
            return "-" + self.bound(self.expr("num", scope, depth - 1), UNARY), UNARY
        long = [e for e, of in self.paths(scope) if of == "text" or isinstance(of, Declared) and of.form == "Parray"]
        if long and self.chance(0.3):
            return f"Plen({self.dice.choice(long)[0]})", ATOM
        return self.operation(self.dice.choice("+-*/%"), self.expr("num", scope, depth - 1), self.expr("num", scope, depth - 1))

    def text(self, scope, depth):
        return self.quoted(self.some_text(0, 3)), ATOM

    def truth(self, scope, depth):
        choices = [(e, self.names_of(of)) for e, of in self.paths(scope) if self.names_of(of)]
        if choices and self.chance(0.3):
            e, names = self.dice.choice(choices)
            return f"Pis({e[0]}, {self.dice.choice(names)})", ATOM
        if depth == 0:
            return self.dice.choice(["true", "false"]), ATOM
        if self.chance(0.12):
            return "!" + self.bound(self.expr("truth", scope, depth - 1), UNARY), UNARY
        if self.chance(0.12):
            high = self.bound(self.expr("num", {}, 1), ATOM)
            inner = self.expr("truth", {**scope, "i": "num"}, depth - 1)[0]
            return f"Pforall (i Pin [{self.dice.randrange(-1, 2)}..{high} % 5] : {inner})", ATOM
        if self.chance(0.25):
            return self.operation(self.dice.choice(["&&", "||"]), *(self.expr("truth", scope, depth - 1) for _ in "ab"))
        sort = "num" if self.chance(0.7) else "text"
        op = self.dice.choice(["==", "!=", "<", "<=", ">", ">="])
        return self.operation(op, *(self.expr(sort, scope, depth - 1) for _ in "ab"))

    @staticmethod
    def names_of(sort):
        if isinstance(sort, tuple):
            return ["some", "none"]
        return list(sort.members) if isinstance(sort, Declared) and sort.form in ("Punion", "Penum") else []

    # Literals.

    def some_text(self, least, most):
        return "".join(self.dice.choice(LETTERS + MARKS) for _ in range(self.dice.randint(least, most)))

    def quoted(self, text):
        shown = "".join(f"\\x{ord(c):02x}" if self.chance(0.05) else c for c in text)
        return f"'{shown}'" if len(text) == 1 and self.chance(0.6) else f'"{shown}"'

    def literal(self):
        return self.quoted(self.dice.choice(MARKS) if self.chance(0.7) else self.some_text(1, 3))

    # Types.

    def base(self, scope):
        """A base type with its arguments, and its sort."""
        dice, kind = self.dice, self.dice.choice(NUMBERS)
        coded = dice.choice(["Pa_", "Pe_"]) if self.chance(0.04) else "P"
        width = lambda most: self.expr("num", scope, 1)[0] if self.chance(0.25) else str(dice.randint(0 if self.chance(0.1) else 1, most))
        forms = [lambda: (f"{coded}{kind}", "num")] * 5 + [
            lambda: (f"{coded}{kind}_FW(:{width(4)}:)", "num"),
            lambda: (f"{coded}string(:{self.quoted(dice.choice(MARKS))}:)", "text"),
            lambda: (f"{coded}string(:{'Peor' if self.chance(0.5) else self.expr('text', scope, 1)[0]}:)", "text"),
            lambda: (f"{coded}string_FW(:{width(3)}:)", "text"),
            lambda: (f'{coded}string_in(:"{dice.choice(["a-c", "0-9", "a-zX", "-a", "Z-a", "b", "a-c-", ".-9"])}":)', "text"),
            lambda: (f"{coded}char", "text"),
            lambda: (f"{coded}ip", "num")]
        if self.binary:
            forms += [lambda: (dice.choice(["Pb_", "Psbl_", "Psbh_"]) + kind, "num")] * 2
            forms += [lambda: (f"{dice.choice(['Psbl_', 'Psbh_'])}{kind}(:{width(8)}:)", "num")] * 2
            forms += [lambda: (dice.choice(["Ppacked", "Pupacked", "Pzoned", "Puzoned"]) + f"(:{width(5)}:)", "num")] * 3
        return dice.choice(forms)()

    def type(self, scope, plain=False):
        """A type where it is used, and its sort."""
        known = [of for of in self.types if not of.is_record]
        if known and self.chance(0.4):
            of = self.dice.choice(known)
            args = [self.expr(sort, scope, 1)[0] for sort in of.params]
            text, sort = of.name + (f"(:{', '.join(args)}:)" if args else ""), of.sort
        else:
            text, sort = self.base(scope)
        return (f"Popt {text}", ("opt", sort)) if not plain and self.chance(0.12) else (text, sort)

    def parameters(self, of):
        """The parameters of a declaration: their text, and the scope that they give."""
        if of.is_record or self.chance(0.7):
            return "", {}
        scope = {}
        for name in self.dice.sample(["k", "m", "n"], self.dice.randint(1, 2)):
            scope[name] = self.dice.choice(["num", "text"])
        kinds = {"num": lambda: "P" + self.dice.choice(NUMBERS), "text": lambda: self.dice.choice(["Pstring", "Pchar"])}
        of.params = list(scope.values())
        return "(:" + ", ".join(f"{kinds[sort]()} {name}" for name, sort in scope.items()) + ":)", scope

    def names(self, scope):
        names = [name for name in ("a", "b", "c", "d", "e", "f", "g", "x", "elts", "some", "it") if name not in scope]
        self.dice.shuffle(names)
        return names

    def guard(self, scope, share):
        return f" : {self.expr('truth', scope)[0]}" if self.chance(share) else ""

    def struct(self, of, head, scope):
        names, parts = self.names(scope), []
        for _ in range(self.dice.randint(1, 6)):
            if self.chance(0.4):
                parts.append(f"{'Peor' if self.chance(0.06) else self.literal()};")
            elif self.chance(0.1):
                sort, name = self.dice.choice(["num", "text"]), names.pop()
                kind = "Pstring" if sort == "text" else "P" + self.dice.choice(NUMBERS)
                parts.append(f"Pcompute {kind} {name} = {self.expr(sort, scope, 2)[0]};")
                of.members[name] = scope[name] = sort
            else:
                (text, sort), name = self.type(scope), names.pop()
                parts.append(f"{text} {name}{self.guard({**scope, name: sort}, 0.3)};")
                of.members[name] = scope[name] = sort
        where = f" Pwhere {{ {self.expr('truth', scope)[0]} }}" if self.chance(0.15) else ""
        return f"Pstruct {head} {{ {' '.join(parts)} }}{where};"

    def branch(self, of, scope, names):
        (text, sort), name = self.type(scope), names.pop()
        of.members[name] = sort
        return f"{text} {name}{self.guard({**scope, name: sort}, 0.3)};"

    def union(self, of, head, scope):
        names = self.names(scope)
        asked = [name for name, sort in scope.items() if sort in ("num", "text")]
        if asked and self.chance(0.7):
            name = self.dice.choice(asked)
            keys = [str(number) for number in self.dice.sample(range(-1, 5), 3)] if scope[name] == "num" else \
                [f'"{text}"' for text in self.dice.sample(["a", "b", ",", "", "ab", "1"], 3)]
            cases = [f"Pcase {key}: {self.branch(of, scope, names)}" for key in keys[:self.dice.randint(1, 3)]]
            cases += [f"Pdefault: {self.branch(of, scope, names)}"] if self.chance(0.5) else []
            return f"Punion {head} {{ Pswitch ({name}) {{ {' '.join(cases)} }} }};"
        branches = [self.branch(of, scope, names) for _ in range(self.dice.randint(1, 4))]
        return f"Punion {head} {{ {' '.join(branches)} }};"

    def array(self, of, head, scope):
        text, of.element = self.type(scope)
        size = self.expr("num", scope, 1)[0] if self.chance(0.3) else ""
        inner = {**scope, "elts": of, "length": "num"}
        options = [f"Psep({self.literal()})"] if self.chance(0.6) else []
        options += [f"Pterm({'Peor' if self.chance(0.3) else self.literal()})"] if self.chance(0.4) else []
        options += [f"Plast({self.expr('truth', inner)[0]})"] if self.chance(0.3) else []
        self.dice.shuffle(options)
        where = f" Pwhere {{ {self.expr('truth', inner)[0]} }}" if self.chance(0.2) else ""
        return f"Parray {head} {{ {text}[{size}]{' : ' if options else ''}{' && '.join(options)}; }}{where};"

    def enum(self, of, head, scope):
        words = self.dice.sample(["A", "B", "AB", "GET", "G", "x1", "c"], self.dice.randint(1, 4))
        of.members = dict.fromkeys(words)
        spellings = self.dice.sample(["a", "ab", "a,", "0", "01", "XY", "-"], len(words))
        labels = [f"{word} Pfrom({self.quoted(other)})" if self.chance(0.4) else word for word, other in zip(words, spellings)]
        return f"Penum {of.name} {{ {', '.join(labels)} }};"

    def typedef(self, of, head, scope):
        text, of.sort = self.type(scope)
        name = next(name for name in self.names(scope))
        rest = f" : {of.name} {name} => {{ {self.expr('truth', {**scope, name: of.sort})[0]} }}" if self.chance(0.7) else ""
        return f"Ptypedef {text} {head}{rest};"

    def opt(self, of, head, scope):
        text, sort = self.type(scope, plain=True)
        of.sort = ("opt", sort)
        return f"Popt {text} {head};"

    def nest(self, of, head, scope):
        """A struct that holds itself between literals."""
        inner = self.dice.choice([f"Popt {of.name} inner;", f"{of.name}_l inner;"])
        element = self.type({}, plain=True)[0]
        text = f"Precursive Pstruct {of.name} {{ '('; Popt {element} b; {inner} ')'; }};"
        of.form, of.params = "Pstruct", []
        return text if "_l" not in inner else f"Precursive Parray {of.name}_l {{ {of.name}[] : Psep(',') && Pterm(')'); }}; {text}"

    def declaration(self, form, name, role=""):
        forms = {"struct": "Pstruct", "union": "Punion", "array": "Parray", "enum": "Penum"}
        of = Declared(name, forms.get(form))
        of.is_record, of.sort = role == "Precord", of
        params, scope = self.parameters(of) if form not in ("enum", "nest") else ("", {})
        text = getattr(self, form)(of, name + params, scope)
        self.lines.append(f"{role} {text}".strip())
        self.types.append(of)

    def description(self):
        forms = ["struct"] * 5 + ["union"] * 4 + ["array"] * 4 + ["enum", "typedef", "typedef", "opt", "nest"]
        for at in range(self.dice.randint(0, 5)):
            self.declaration(self.dice.choice(forms), f"t{at}")
        if self.chance(0.2):
            self.declaration(self.dice.choice(["struct", "union", "array"]), "h", "Precord")
            self.declaration("struct", "r", "Precord")
            self.lines.append("Parray l { r[]; }; Psource Pstruct s { h head; l rest; };")
        else:
            self.declaration(self.dice.choice(["struct"] * 6 + ["union", "union", "array", "array", "typedef", "enum", "opt"]), "r", "Precord")
            self.lines += ["Psource Parray s { r[]; };"] if self.chance(0.1) else []
        comments = ["/* a * b */", "// '", "/- \"", "/**/", "\t"]
        return "".join(line + (" " + self.dice.choice(comments) if self.chance(0.1) else "") + "\n" for line in self.lines)


WORDS = ["elts", "length", "some", "none", "it", "r", "Puint8", "Pint64", "Pstring", "Pchar", "Pip", "Pstring_FW", "Psbl_uint16", "Ppacked", "Pfoo"]
ROLES = ("Precord", "Psource", "Precursive")
ATOMS = ["0", "7", "\"\"", "'a'", '"ab"', "true", "false", "-1", "(1)", '("a")', "Plen(a)", "a.b", "a[0]", "!a"]


def given_role(dice, tokens):
    """Puts `Precord` or its like before a declaration, or in the place of what it has."""
    forms = ("Pstruct", "Punion", "Parray", "Penum", "Ptypedef", "Popt")
    begins = [at for at, (kind, _) in enumerate(tokens) if kind in forms and (at == 0 or tokens[at - 1][0] in (";", *ROLES))]
    if begins:
        at = dice.choice(begins)
        tokens[at - (at > 0 and tokens[at - 1][0] in ROLES):at] = [("", dice.choice(ROLES))]


def reworded(dice, text):
    """A description with one or two of its words exchanged for others: mostly names for names, and operands for operands."""
    tokens = [(token.kind, token.spelled) for token in grammar.tokens_of(text)[:-1]]
    for _ in range(dice.randint(1, 2)):
        free = [at for at, (kind, _) in enumerate(tokens) if kind in ("NAME", "NUMBER", "CHAR", "TEXT")]
        at = dice.choice(free) if free and dice.random() < 0.85 else dice.randrange(len(tokens))
        kind, how = tokens[at][0], dice.random()
        if how < 0.05:
            given_role(dice, tokens)
        elif how < 0.1:
            tokens[at:at + dice.randrange(2)] = [("", dice.choice(sorted(grammar.KEYWORDS) + ATOMS))]
        elif kind == "NAME":
            tokens[at] = kind, dice.choice([word for other, word in tokens if other == "NAME"] if how < 0.7 else WORDS + ATOMS)
        elif kind in ("NUMBER", "CHAR", "TEXT"):
            tokens[at] = kind, dice.choice(ATOMS)
        elif kind in OPERATORS:
            tokens[at] = kind, dice.choice(list(OPERATORS))
    return " ".join(word for _, word in tokens)


def faulty(dice, text):
    """The bytes of a text that differs from a description in some bytes, or in a word or two."""
    if dice.random() < 0.3:
        return spoiled(dice, text, b" \n;:,(){}[]=<>!&|.+-*/%\"'\\0x9aP_" + bytes([dice.randrange(256)]))
    return reworded(dice, text.decode("latin-1")).encode("latin-1")


# ---- Inputs ----------------------------------------------------------------------------------------

class Sampler:
    """Makes a value and its bytes by the terms of a module. It doesn't look for what every constraint wants."""

    def __init__(self, dice, module):
        self.dice, self.module = dice, module

    def make(self, t, scope, depth=0):
        return getattr(self, t[0])(t, scope, depth)

    def Unit(self, t, scope, depth):
        return tables.UNIT, b""

    def Base(self, t, scope, depth):
        dice, base = self.dice, t[1]
        args = [tables.argument(e, scope) for e in t[2]]
        arg = args[0] if args else None
        size = arg if isinstance(arg, int) and 0 <= arg < 30 else 2
        if base[0] == "Bin":
            data = bytes(dice.choice([0, 1, 2, 65, 255, dice.randrange(256)]) for _ in range(size if args else int(base[1][1:]) // 8))
            return int.from_bytes(data, "big" if base[2] == "high" else "little", signed=base[1][0] == "i"), data
        if base[0] in ("Packed", "Zoned"):
            digits = [dice.randrange(10) for _ in range(max(size, 1))]
            sign = dice.choice("CCDF") if base[1] == "signed" else dice.choice("CF")
            number = int("".join(map(str, digits))) * (-1 if sign == "D" else 1)
            if base[0] == "Packed":
                text = "".join(map(str, digits)) + sign
                return number, bytes.fromhex("0" * (len(text) % 2) + text)
            return number, bytes.fromhex("".join(f"F{d}" for d in digits[:-1]) + f"{sign}{digits[-1]}")
        coding = base[1] if base[0] not in ("Int", "IntFw") else base[2]
        value, text = self.text_of(base, arg, size)
        return value, text.encode(coding, "replace")

    def text_of(self, base, arg, size):
        """A value of a base type of characters, and its characters."""
        dice = self.dice
        words = lambda letters, least, most: "".join(dice.choice(letters) for _ in range(dice.randint(least, most)))
        if base[0] in ("Int", "IntFw"):
            low, high = tables.RANGES[base[1]]
            number = dice.choice([low, high, dice.randint(low, high)]) if dice.random() < 0.15 else dice.randrange(6)
            if base[0] == "Int":
                return number, dice.choice(["", "", "", "0", "+"]) * (number >= 0) + str(number)
            number = number if len(str(number)) <= size else dice.randrange(10)
            if dice.random() < 0.05:
                return number, str(number).center(size)
            return number, str(number).rjust(size, dice.choice(" 0") if number >= 0 else " ")
        if base[0] == "Until":
            text = words([c for c in LETTERS + MARKS if c != arg], 0, 4)
        elif base[0] == "UntilEor":
            text = words(LETTERS + MARKS, 0, 4)
        elif base[0] == "Fixed":
            text = words(LETTERS + MARKS, size, size)
        elif base[0] == "Class":
            text = words(sorted(tables.class_pattern(arg or "") or "a"), 1, 4)
        elif base[0] == "Char":
            text = words(LETTERS + MARKS, 1, 1)
        elif base[0] == "Ip":
            parts = [dice.choice([0, 1, 10, 99, 255, dice.randrange(256)]) for _ in range(4)]
            return int.from_bytes(bytes(parts), "big"), ".".join(map(str, parts))
        else:
            at = dice.randrange(len(base[2]))
            return ("#", at), base[2][at][1]
        return text, text

    def Lit(self, t, scope, depth):
        return tables.UNIT, t[1]

    def Eor(self, t, scope, depth):
        return tables.UNIT, b""

    def Struct(self, t, scope, depth):
        values, out = [], b""
        for name, term in t[1]:
            value, data = self.make(term, scope, depth)
            values.append(value)
            out += data
            scope = {**scope, name: value} if name is not None else scope
        return ("T", values), out

    def Alt(self, t, scope, depth):
        at = len(t[1]) - 1 if depth > 8 else self.dice.randrange(len(t[1]))
        value, data = self.make(t[1][at][1], scope, depth)
        return ("B", at, value), data

    def Switch(self, t, scope, depth):
        key = tables.argument(t[1], scope)
        fits = [at for at, (wanted, _) in enumerate(t[2]) if type(wanted) is type(key) and wanted == key]
        fits += [at for at, (wanted, _) in enumerate(t[2]) if wanted is None]
        if not fits:
            return tables.MISSING, b""
        value, data = self.make(t[2][fits[0]][1][1], scope, depth)
        return ("B", fits[0], value), data

    def Guard(self, t, scope, depth):
        for _ in range(4 if depth < 4 else 1):
            value, data = self.make(t[1], scope, depth)
            if tables.value(t[3], {**scope, t[2]: value}) is True:
                break
        return value, data

    def Seq(self, t, scope, depth):
        _, elem, sep, size, last, stop, elts = t
        count = tables.argument(size, scope) if size is not None else self.dice.randrange(5)
        count = count if isinstance(count, int) and 0 <= count < 8 and depth < 8 else 1 - (depth >= 8)
        values, out = [], b""
        for at in range(count):
            if at and sep is not None:
                out += self.make(sep, scope, depth)[1]
            value, data = self.make(elem, scope, depth)
            values.append(value)
            out += data
        return ("A", values), out

    def Call(self, t, scope, depth):
        if depth > 20:
            return tables.MISSING, b""
        names = [name for _, name in self.module.decls[t[1]]["params"]]
        args = [tables.argument(e, scope) for e in t[2]]
        return self.make(self.module.terms[t[1]], dict(zip(names, args)), depth + 1)

    def Compute(self, t, scope, depth):
        value = tables.argument(t[1], scope)
        return (tables.MISSING if value is None else value), b""

    def Absorb(self, t, scope, depth):
        return self.make(t[1], scope, depth)

    def Scan(self, t, scope, depth):
        value, data = self.make(t[1], scope, depth)
        return value, (b"?" + data if self.dice.random() < 0.04 else data)


def spoiled(dice, data, alphabet):
    """The same bytes with some of them changed, lost, or added."""
    data = bytearray(data)
    for _ in range(dice.randint(1, 3)):
        at, kind = dice.randint(0, len(data)), dice.randrange(5)
        if kind == 0:
            data[at:at] = bytes([dice.choice(alphabet)])
        elif kind == 1:
            data[at:at + 1] = bytes([dice.choice(alphabet)])
        elif kind == 2:
            del data[at:at + dice.randint(1, 3)]
        elif kind == 3:
            data[at:at] = data[dice.randint(0, at):at]
        else:
            del data[at:]
    return bytes(data)


def input_of(dice, module, coding):
    """The bytes of an input, and how it is divided into records."""
    alphabet = (LETTERS + MARKS + "()+-?").encode(coding) + bytes([dice.randrange(256)])
    sampler, records = Sampler(dice, module), []
    for number in range(dice.randint(1, 8)):
        each = module.head if module.head is not None and number == 0 else module.each
        record = sampler.make(("Call", each, []), {})[1]
        records.append(spoiled(dice, record, alphabet) if dice.random() < 0.5 else record)
    kind = dice.choice(["nl", "nl", "nl", "term", "fixed", "rdw", "whole"])
    if kind == "nl":
        return b"\n".join(records) + b"\n" * dice.randrange(2), "nl"
    if kind == "term":
        end = dice.choice([0x0d, 0x15, 0x7e])
        return bytes([end]).join(records) + bytes([end]) * dice.randrange(2), f"term:{end:02X}"
    if kind == "fixed":
        size = max(1, len(records[0]) + dice.choice([0, 0, 0, 1, -1]))
        return b"".join(record.ljust(size, b"?")[:size] if dice.random() < 0.9 else record for record in records), f"fixed:{size}"
    if kind == "rdw":
        data = b"".join((len(record) + 4).to_bytes(2, "big") + b"\0\0" + record for record in records)
        return (spoiled(dice, data, alphabet) if dice.random() < 0.1 else data), "rdw"
    return records[0], "whole"


def mask_of(dice, module):
    """A mode for all declarations, and behind it those of some."""
    modes, names = ["both", "check", "set", "none"], [decl["name"] for decl in module.decls] + ["it"] * (dice.random() < 0.1)
    others = dice.sample(names, dice.randint(0, min(3, len(names))))
    return ",".join([dice.choice(modes), *(f"{name}:{dice.choice(modes)}" for name in others)])
