#!/usr/bin/env python3
"""The verdict on a description a second time: the first lexical fault, or the first token that can't come, or the first broken rule, as
docs/RULES.md has them. The limits of rule 24 and of images aren't looked at.

    examples/verdicts.py --check    holds the rows of test_check, which were worked out by hand, against it
    examples/verdicts.py DESC       tells the verdict

Trees are those of tools/grammar.py. The program shares no code with either.
"""
import re
import sys
from pathlib import Path

TOP = Path(__file__).resolve().parent.parent
sys.path.append(str(TOP / 'tools'))
import grammar                                             # noqa: E402
import tables                                              # noqa: E402

ROWS = TOP / 'crates' / 'test_check' / 'data' / 'descriptions.txt'


# Tokens: the first place where there is none.

NUMBER = re.compile(r'0x[0-9a-fA-F]*|\d+', re.A)
MARK = re.compile(r"\(:|:\)|\.\.|=>|==|!=|<=|>=|&&|\|\||[{}\[\]();,:.=!<>+\-*/%$]")
WORD = re.compile(r'[A-Za-z0-9_]*')
ESCAPE = re.compile(r"\\(?:[nrt0\\'\"]|x[0-9a-fA-F]{2})")


def literal_end(text, begin):
    """The end of the literal at a place, or its fault."""
    at, count = begin + 1, 0
    while text[at:at + 1] not in ('', '\n', text[begin]):
        escape = ESCAPE.match(text, at)
        if text[at] == '\\' and not escape:
            return None, ('BadEscape', at)
        if not ' ' <= text[at] <= '~':
            return None, ('BadByte', at)
        at, count = escape.end() if escape else at + 1, count + 1
    if text[at:at + 1] != text[begin]:
        return None, ('OpenText', begin)
    return (None, ('BadChar', begin)) if text[begin] == "'" and count != 1 else (at + 1, None)


def lexical_fault(text):
    """The first lexical fault of a text by the table of docs/RULES.md, or None."""
    at = 0
    while at < len(text):
        fault, number, mark = None, NUMBER.match(text, at), MARK.match(text, at)
        if text[at] in '\t\n\r ':
            at += 1
        elif text.startswith('/*', at):
            end = text.find('*/', at + 2)
            at, fault = end + 2, ('OpenComment', at) if end < 0 else None
        elif text[at:at + 2] in ('//', '/-'):
            at = text.find('\n', at) if '\n' in text[at:] else len(text)
        elif text[at] in "'\"":
            at, fault = literal_end(text, at)
        elif number:
            word = number[0]
            if word == '0x' or re.match('0[0-9]', word) or WORD.match(text, number.end())[0]:
                return 'BadNumber', at
            fault = ('NumberTooWide', at) if int(word, 0) >= 2 ** 127 else None
            at = number.end()
        elif mark or WORD.match(text, at)[0]:
            at = (mark or WORD.match(text, at)).end()
        else:
            fault = ('BadByte', at)
        if fault:
            return fault
    return None


# Rules: sorts are these, or a Choice.

NUM, TEXT, TRUTH, NOTHING, UNKNOWN = 'number', 'text', 'truth', 'nothing', None
KIND = r'u?int(?:8|16|32|64)'
# Base types: a pattern of names, what they are worth, and the sorts of their arguments, one list for each number of them.
BASES = [
    (rf'P(?:[ae]_|b_)?{KIND}', NUM, [[]]), (rf'P(?:[ae]_)?{KIND}_FW', NUM, [[NUM]]), (rf'P(?:sbl|sbh)_{KIND}', NUM, [[], [NUM]]),
    (r'P(?:[ae]_)?string', TEXT, [[TEXT]]), (r'P(?:[ae]_)?string_FW', TEXT, [[NUM]]), (r'P(?:[ae]_)?string_in', TEXT, [[TEXT]]),
    (r'P(?:[ae]_)?char', TEXT, [[]]), (r'P(?:[ae]_)?ip', NUM, [[]]), (r'Pu?(?:packed|zoned)', NUM, [[NUM]])]
COMPUTED, PARAMETERS = rf'P{KIND}|Pstring', rf'P{KIND}|Pstring|Pchar'
# What operators take.
TAKES = {**dict.fromkeys(['+', '-', '*', '/', '%'], [NUM]), **dict.fromkeys(['&&', '||'], [TRUTH]),
         **dict.fromkeys(['==', '!='], [NUM, TEXT, TRUTH]), **dict.fromkeys(['<', '<=', '>', '>='], [NUM, TEXT])}


def base_of(name):
    return next(((sort, args) for pattern, sort, args in BASES if re.fullmatch(pattern, name)), None)


def kids(tree, rule):
    return [kid for kid in tree.kids if isinstance(kid, grammar.Tree) and kid.rule == rule]


def kid(tree, rule):
    return next(iter(kids(tree, rule)), None)


def words(tree, kind):
    return [kid for kid in tree.kids if isinstance(kid, grammar.Token) and kid.kind == kind]


def unquoted(token):
    return tables.unescaped(token.spelled[1:-1])


class Choice:
    """The sort of what has parts, branches, labels or elements: its form, and the number of its declaration, or of an optional
    the sort inside."""

    def __init__(self, form, of):
        self.form, self.of = form, of


class Decl:
    def __init__(self, tree):
        self.role = tree.kids[0].spelled if isinstance(tree.kids[0], grammar.Token) else None
        self.body = next(kid for kid in tree.kids if isinstance(kid, grammar.Tree))
        self.form = self.body.rule
        self.token = words(self.body, 'NAME')[0]
        self.name = self.token.spelled
        params = kid(self.body, 'params')
        self.params = list(zip(kids(params, 'type'), words(params, 'NAME'))) if params else []

    def branches(self):
        switch = kid(self.body, 'switch')
        return kids(switch or self.body, 'branch')

    def fields(self):
        """The named parts of a struct: token, type and whether it is computed."""
        found = []
        for part in kids(self.body, 'part'):
            of = kid(part, 'branch') or part
            if words(of, 'NAME'):
                found.append((words(of, 'NAME')[0], kid(of, 'type'), of is part))
        return found


class Check:
    """Finds all violations of a description: pairs of a byte and a rule."""

    def __init__(self, tokens, tree):
        self.tokens, self.found = tokens, []
        self.decls = [Decl(decl) for decl in kids(tree, 'decl')]
        for at, decl in enumerate(self.decls):
            self.declaration(at, decl)
        if not any(decl.role == 'Precord' for decl in self.decls):
            self.wrong(23, self.tokens[-1])

    def wrong(self, rule, token):
        self.found.append((token.begin, rule))

    def first(self, tree):
        return self.tokens[tree.begin]

    # Types.

    def named(self, name, at):
        """The number of the declaration that a type name means in declaration `at`, or None."""
        number = next((number for number, decl in enumerate(self.decls) if decl.name == name), None)
        later = number is not None and number >= at and self.decls[number].role != 'Precursive'
        return None if later else number

    def sort(self, of, at, seen=()):
        """The sort of a type where it is used in declaration `at`."""
        name = words(of, 'NAME')[0].spelled
        inner = base_of(name)[0] if base_of(name) else self.declared(self.named(name, at), seen)
        return self.optional(inner) if words(of, 'Popt') else inner

    @staticmethod
    def optional(sort):
        return UNKNOWN if sort is UNKNOWN else Choice('optional', sort)

    def declared(self, number, seen=()):
        if number is None or number in seen:
            return UNKNOWN
        decl = self.decls[number]
        if decl.form == 'typedef':
            return self.sort(kid(decl.body, 'type'), number, (*seen, number))
        if decl.form == 'opt':
            return self.optional(self.sort(kid(decl.body, 'type'), number, (*seen, number)))
        return Choice(decl.form, number)

    def members(self, sort):
        """The names of fields and branches of a sort, with the types that they have."""
        if not isinstance(sort, Choice):
            return {}
        if sort.form == 'optional':
            return {'some': lambda: sort.of, 'none': lambda: NOTHING}
        decl = self.decls[sort.of]
        parts = [(token, of) for token, of, _ in decl.fields()] if sort.form == 'struct' else \
            [(words(of, 'NAME')[0], kid(of, 'type')) for of in decl.branches()] if sort.form == 'union' else []
        return {token.spelled: (lambda of=of: self.sort(of, sort.of)) for token, of in reversed(parts)}

    def choices(self, sort):
        if not isinstance(sort, Choice) or sort.form not in ('union', 'optional', 'enum'):
            return None
        if sort.form == 'enum':
            return {words(label, 'NAME')[0].spelled for label in kids(self.decls[sort.of].body, 'label')}
        return set(self.members(sort))

    def type_name(self, of, at, in_source=False):
        """The rules on the name of a type, wherever it is used."""
        token = words(of, 'NAME')[0]
        name = token.spelled
        if base_of(name):
            return
        number = self.named(name, at)
        if number is None:
            self.wrong(3 if any(decl.name == name for decl in self.decls) else 2, token)
        elif not in_source and (self.decls[number].role == 'Precord' or self.is_list(number)):
            self.wrong(20, token)

    def type(self, of, at, scope, later, in_source=False):
        """The rules on a type with its arguments; its sort."""
        self.type_name(of, at, in_source)
        token, args = words(of, 'NAME')[0], kids(of, 'arg')
        name = token.spelled
        sorts = self.arguments(of, scope, later)
        wanted = self.wanted(name, at)
        if wanted is not None and len(args) not in map(len, wanted):
            self.wrong(7, token)
        wanted = next((some for some in wanted or [] if len(some) == len(args)), [UNKNOWN] * len(args))
        until = re.fullmatch(r'P(?:[ae]_)?string', name) and len(args) == 1
        for arg, sort, want in zip(args, sorts, wanted):
            if sort == 'Peor' and not until or sort != 'Peor' and UNKNOWN not in (sort, want) and sort != want:
                self.wrong(8, self.first(arg))
        return self.sort(of, at)

    def arguments(self, of, scope, later):
        """The sorts of a type's arguments, `Peor` among them."""
        return [self.expr(kid(arg, 'expr'), scope, later) if kid(arg, 'expr') else 'Peor' for arg in kids(of, 'arg')]

    def wanted(self, name, at):
        """The sorts of the arguments that a type takes: a list for each number of them, or None where it isn't known."""
        if base_of(name):
            return base_of(name)[1]
        number = self.named(name, at)
        return None if number is None else [[self.sort(of, number) for of, _ in self.decls[number].params]]

    # Expressions: the sort, unknown where a rule is broken inside.

    def expr(self, tree, scope, later=()):
        before = len(self.found)
        sort = getattr(self, 'of_' + tree.rule, self.of_binary)(tree, scope, later)
        return sort if len(self.found) == before else UNKNOWN

    def fits(self, sort, wanted, token):
        """Whether a sort is one of these, as an unknown one may be; else the token is wrong."""
        if sort is UNKNOWN or (sort.form if isinstance(sort, Choice) else sort) in wanted:
            return True
        self.wrong(9, token)
        return False

    def operand(self, tree, scope, later, wanted):
        """An operand of one of these sorts."""
        sort = self.expr(tree, scope, later)
        return sort if self.fits(sort, wanted, self.first(tree)) else UNKNOWN

    def of_binary(self, tree, scope, later):
        """A chain of operators of one level, which groups from the left."""
        before, (first, *rest) = len(self.found), tree.kids
        sort = self.expr(first, scope, later)
        for op, right in zip(rest[::2], rest[1::2]):
            takes, other = TAKES[op.kind], self.expr(right, scope, later)
            fit = [self.fits(sort, takes, self.first(first)), self.fits(other, takes, self.first(right))]
            if all(fit) and UNKNOWN not in (sort, other) and sort != other:
                self.wrong(9, self.first(right))
            sort = UNKNOWN if len(self.found) > before else NUM if takes == [NUM] else TRUTH
        return sort

    def of_unary(self, tree, scope, later):
        if isinstance(tree.kids[0], grammar.Token):
            sort = NUM if tree.kids[0].kind == '-' else TRUTH
            self.operand(tree.kids[1], scope, later, [sort])
            return sort
        sort, rest = self.expr(tree.kids[0], scope, later), tree.kids[1:]
        while rest:
            if rest[0].kind == '.':
                token, rest = rest[1], rest[2:]
                if sort is not UNKNOWN and token.spelled not in self.members(sort):
                    self.wrong(16, token)
                    sort = UNKNOWN
                sort = self.members(sort)[token.spelled]() if sort is not UNKNOWN else UNKNOWN
            else:
                index, rest = rest[1], rest[3:]
                is_array = isinstance(sort, Choice) and sort.form == 'array'
                if sort is not UNKNOWN and not is_array:
                    self.wrong(9, self.first(tree))
                self.operand(index, scope, later, [NUM])
                sort = self.sort(kid(self.decls[sort.of].body, 'type'), sort.of) if is_array else UNKNOWN
        return sort

    def of_atom(self, tree, scope, later):
        token, inner = tree.kids[0], kids(tree, 'expr')
        if isinstance(token, grammar.Tree):
            return TEXT
        if token.kind in ('NUMBER', 'true', 'false'):
            return NUM if token.kind == 'NUMBER' else TRUTH
        if token.kind == 'NAME':
            if token.spelled not in scope:
                self.wrong(6 if token.spelled in later else 5, token)
                return UNKNOWN
            return scope[token.spelled]
        if token.kind == 'Plen':
            self.operand(inner[0], scope, later, [TEXT, 'array'])
            return NUM
        if token.kind == 'Pis':
            sort = self.operand_of_pis(inner[0], scope, later)
            if sort is not UNKNOWN and words(tree, 'NAME')[0].spelled not in self.choices(sort):
                self.wrong(17, words(tree, 'NAME')[0])
            return TRUTH
        if token.kind == 'Pforall':
            for bound in inner[:2]:
                self.operand(bound, scope, later, [NUM])
            self.condition(inner[2], {**scope, words(tree, 'NAME')[0].spelled: NUM}, later)
            return TRUTH
        return self.expr(inner[0], scope, later)

    def operand_of_pis(self, tree, scope, later):
        sort = self.expr(tree, scope, later)
        if sort is not UNKNOWN and self.choices(sort) is None:
            self.wrong(17, self.first(tree))
            return UNKNOWN
        return sort

    def condition(self, tree, scope, later=()):
        if tree is not None and self.expr(tree, scope, later) not in (TRUTH, UNKNOWN):
            self.wrong(10, self.first(tree))

    # Declarations.

    def is_record(self, of, at):
        """Whether a type is a type of records, without `Popt`."""
        number = self.named(words(of, 'NAME')[0].spelled, at)
        return not words(of, 'Popt') and number is not None and self.decls[number].role == 'Precord'

    def is_list(self, at):
        """Whether a declaration is a list of records."""
        decl = self.decls[at]
        bare = decl.form == 'array' and decl.role in (None, 'Psource') and not decl.params
        return bare and not any(kid(decl.body, rule) for rule in ('expr', 'option', 'where')) and self.is_record(kid(decl.body, 'type'), at)

    def is_source(self, at):
        """Whether a declaration is a source shape."""
        decl = self.decls[at]
        if decl.role != 'Psource' or decl.form != 'struct':
            return self.is_list(at)
        parts = kids(decl.body, 'part')
        fields = [kid(part, 'branch') for part in parts]
        if decl.params or kid(decl.body, 'where') or len(parts) != 2 or None in fields or any(kid(field, 'expr') for field in fields):
            return False
        head, rest = (kid(field, 'type') for field in fields)
        number = self.named(words(rest, 'NAME')[0].spelled, at)
        plain = not words(rest, 'Popt') and number is not None and self.decls[number].role is None
        return self.is_record(head, at) and plain and self.is_list(number)

    def declaration(self, at, decl):
        if base_of(decl.name) or any(other.name == decl.name for other in self.decls[:at]):
            self.wrong(1, decl.token)
        if decl.role in ('Precord', 'Psource') and decl.params:
            self.wrong(21, decl.token)
        if decl.role == 'Psource' and (at + 1 < len(self.decls) or not self.is_source(at)):
            self.wrong(22, decl.token)
        if decl.role == 'Precursive' and decl.form not in ('struct', 'union', 'array'):
            self.wrong(25, decl.token)
        scope, names = {}, [token for _, token in decl.params]
        for of, token in decl.params:
            self.type_name(of, at)
            if words(of, 'Popt') or kids(of, 'arg') or not re.fullmatch(PARAMETERS, words(of, 'NAME')[0].spelled):
                self.wrong(19, words(of, 'NAME')[0])
            self.arguments(of, {}, ())
            scope.setdefault(token.spelled, self.sort(of, at))
        names += getattr(self, 'rules_of_' + decl.form)(at, decl, scope) or []
        for number, token in enumerate(names):
            if token.spelled in [other.spelled for other in names[:number]]:
                self.wrong(4, token)

    def literal(self, tree):
        """A literal that isn't to be empty."""
        word = tree if tree.rule == 'word' else kid(tree, 'word')
        if word and unquoted(word.kids[0]) == '':
            self.wrong(14, word.kids[0])

    def rules_of_struct(self, at, decl, scope):
        fields, in_source = [token for token, _, _ in decl.fields()], self.is_source(at)
        later = [token.spelled for token in fields]
        for part in kids(decl.body, 'part'):
            of = kid(part, 'branch') or part
            if kid(part, 'literal'):
                self.literal(kid(part, 'literal'))
                continue
            token, inner, e = words(of, 'NAME')[0], kid(of, 'type'), kid(of, 'expr')
            if of is part:
                self.type_name(inner, at)
                name = words(inner, 'NAME')[0]
                self.arguments(inner, scope, later)
                fits = re.fullmatch(COMPUTED, name.spelled) and not words(inner, 'Popt') and not kids(inner, 'arg')
                sort, want = self.expr(e, scope, later), self.sort(inner, at)
                if not fits or UNKNOWN not in (sort, want) and sort != want:
                    self.wrong(18, name)
                scope = {**scope, token.spelled: want}
            else:
                sort = self.type(inner, at, scope, later, in_source)
                scope = {**scope, token.spelled: sort}
                self.condition(e, scope, later[1:])
            later = later[1:]
        if kid(decl.body, 'where'):
            self.condition(kid(kid(decl.body, 'where'), 'expr'), scope)
        return fields

    def branch(self, tree, at, scope):
        token, sort = words(tree, 'NAME')[0], self.type(kid(tree, 'type'), at, scope, ())
        self.condition(kid(tree, 'expr'), {**scope, token.spelled: sort})
        return token

    def rules_of_union(self, at, decl, scope):
        switch = kid(decl.body, 'switch')
        if switch:
            self.cases(switch, scope)
        return [self.branch(tree, at, scope) for tree in decl.branches()]

    def cases(self, switch, scope):
        """The rules on what a switch asks, and on its constants."""
        asked = self.expr(kid(switch, 'expr'), scope)
        if asked not in (NUM, TEXT, UNKNOWN):
            self.wrong(12, self.first(kid(switch, 'expr')))
            asked = UNKNOWN
        seen = []
        for const in kids(switch, 'const'):
            word, number = kid(const, 'word'), words(const, 'NUMBER')
            value = unquoted(word.kids[0]) if word else int(number[0].spelled, 0) * (-1 if words(const, '-') else 1)
            if asked is not UNKNOWN and asked != (TEXT if word else NUM):
                self.wrong(12, self.first(const))
            if value in seen:
                self.wrong(13, self.first(const))
            seen.append(value)

    def rules_of_array(self, at, decl, scope):
        self.type(kid(decl.body, 'type'), at, scope, (), self.is_list(at))
        if kid(decl.body, 'expr'):
            self.operand(kid(decl.body, 'expr'), scope, (), [NUM])
        inner = {**scope, 'elts': Choice('array', at), 'length': NUM}
        options = []
        for option in kids(decl.body, 'option'):
            if kid(option, 'expr'):
                self.condition(kid(option, 'expr'), inner)
            else:
                self.literal(kid(option, 'literal') or kid(option, 'word'))
            if option.kids[0].spelled in options:
                self.wrong(4, option.kids[0])
            options.append(option.kids[0].spelled)
        if kid(decl.body, 'where'):
            self.condition(kid(kid(decl.body, 'where'), 'expr'), inner)

    def rules_of_enum(self, at, decl, scope):
        seen = []
        for label in kids(decl.body, 'label'):
            token = kid(label, 'word').kids[0] if kid(label, 'word') else words(label, 'NAME')[0]
            spelling = unquoted(token) if kid(label, 'word') else token.spelled
            if spelling == '':
                self.wrong(14, token)
            if spelling in seen:
                self.wrong(15, token)
            seen.append(spelling)
        return [words(label, 'NAME')[0] for label in kids(decl.body, 'label')]

    def rules_of_typedef(self, at, decl, scope):
        sort = self.type(kid(decl.body, 'type'), at, scope, ())
        names = words(decl.body, 'NAME')[1:]
        if names:
            if names[0].spelled != decl.name:
                self.wrong(11, names[0])
            self.condition(kid(decl.body, 'expr'), {**scope, names[1].spelled: sort})

    def rules_of_opt(self, at, decl, scope):
        self.type(kid(decl.body, 'type'), at, scope, ())


def derived(text, start):
    """The tokens and the tree of a text, and the first fault where it has none."""
    fault = lexical_fault(text)
    if fault:
        return None, None, f'lexical {fault[0]} at byte {fault[1]}'
    tokens = grammar.tokens_of(text)
    derivation = grammar.Derivation(tokens, start)
    at = derivation.furthest
    return tokens, derivation.tree, None if derivation.tree else f'syntax at token {at} byte {tokens[at].begin}'


def rule_told(found):
    return f'rule {min(found)[1]} at byte {min(found)[0]}'


def verdict(text):
    """The verdict on a text of one character for each byte, in the words of `pads check`."""
    tokens, tree, fault = derived(text, 'desc')
    if fault:
        return fault
    check = Check(tokens, tree)
    return rule_told(check.found) if check.found else f'accepted {len(check.decls)}'


def step_fault(check, sort, tree):
    """The sort that a path leads to, or its first step that can't be taken, with the reason."""
    named = [token for token in tree.kids if token.kind not in ('.', '$', '[', ']', 'END')]
    for number, token in enumerate(named, 1):
        form = sort.form if isinstance(sort, Choice) else None
        if token.kind != 'NAME':
            if form != 'array':
                return None, f'step {number} NotArray'
            sort = check.sort(kid(check.decls[sort.of].body, 'type'), sort.of)
        elif token.spelled in check.members(sort):
            sort = check.members(sort)[token.spelled]()
        else:
            reason = {'struct': 'NoField', 'union': 'NoBranch', 'optional': 'NoBranch'}.get(form, 'NotNamed')
            return None, f'step {number} {reason}'
    return sort, None


def question_fault(text, each, path, filter):
    """Why `pads query` refuses a path or a filter over an accepted description with this record type; None where it doesn't."""
    tokens, tree, fault = derived(path, 'path')
    check = Check(*derived(text, 'desc')[:2])
    sort, fault = (None, fault) if fault else step_fault(check, check.declared(each), tree)
    if fault or filter is None:
        return fault and f'path {fault}'
    check.tokens, tree, fault = derived(filter, 'filter')
    if not fault:
        check.condition(kid(tree, 'expr'), {'it': sort})
        fault = rule_told(check.found) if check.found else None
    return fault and f'filter {fault}'


def main():
    if sys.argv[1:] != ['--check']:
        print(verdict(Path(sys.argv[1]).read_bytes().decode('latin-1')))
        return 0
    lines = ROWS.read_text(encoding='latin-1').splitlines()
    rows = [(row, text[:1].strip() + text[1:]) for row, _, text in (line.partition(':') for line in lines if line and not line.startswith('#'))]
    differ = [(row, verdict(text)) for row, text in rows if verdict(text) != row]
    for row, told in differ[:9]:
        print(f'the table says {row}, the second reader {told}')
    print(f'{len(rows)} descriptions of test_check, {len(differ)} with another verdict')
    return int(bool(differ))


if __name__ == '__main__':
    sys.exit(main())
