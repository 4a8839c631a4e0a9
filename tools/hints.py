"""What most likely went wrong at a refused place, and what is written instead: data for explain.py.

A hint is for verdicts (`syntax`, `rule 9`, `BadByte`): the first whose patterns fit is told. `before` must be found at
the end of the text before the place, `at` from the place on; both have the comments blanked. The message may name what
the patterns caught: {name}. `wanted` is a token that could have stood there.
"""
import re

CALLABLE = r"(?:P(?:[ae]_)?u?int(?:8|16|32|64)_FW|P(?:[ae]_)?string(?:_FW|_in)?|P(?:b|sbl|sbh)_u?int(?:8|16|32|64)|Pu?(?:packed|zoned))"
WORD = r"[A-Za-z_]\w*"
KEYWORD = (r"(?:Pstruct|Punion|Parray|Penum|Popt|Ptypedef|Pswitch|Pcase|Pdefault|Pwhere|Precord|Psource|Precursive|Psep|Pterm|Plast"
           r"|Peor|Pforall|Pin|Pcompute|Pfrom|Pis|Plen|true|false)\b")
ONE = r"(?:'(?:[^'\\\n]|\\.[0-9a-fA-F]{0,2})'|\"(?:[^\"\\\n]|\\.)*\"|[\w.]+)"


class Hint:
    def __init__(self, verdicts, message, at="", before="", wanted=None):
        self.verdicts, self.message, self.wanted = verdicts.split(", "), message, wanted
        self.at, self.before = re.compile(at, re.A), re.compile(f"(?:{before})\\s*\\Z", re.A)

    def told(self, verdict, before, at, wanted):
        if verdict not in self.verdicts or self.wanted and self.wanted not in wanted:
            return None
        here, there = self.at.match(at), self.before.search(before[-300:])
        if not here or not there:
            return None
        return self.message.format(**there.groupdict(), **here.groupdict())


HINTS = [
    # Bytes that are no tokens.
    Hint("BadByte", "a comment is `// ..` to the end of the line, or `/* .. */`", r"#"),
    Hint("BadByte", "there is no choice by `?`: an optional type is `Popt TYPE name;`, a choice is a `Punion`", r"\?"),
    Hint("BadByte", "both of two conditions is `&&`", r"&"),
    Hint("BadByte", "one of two conditions is `||`", r"\|"),
    Hint("BadByte", "quotes are the plain `'` and `\"`; an editor put others here", r"\xe2\x80[\x98\x99\x9c\x9d]"),
    Hint("BadByte", "a byte above 7E is written as `\\xHH` in a literal, a letter of UTF-8 as two of them or more", r"[\x80-\xff]"),
    Hint("BadByte", "a name has letters, digits and `_`; what is literal in the data stands between quotes", r"."),
    Hint("BadNumber", "a number has no leading zeros: write `{digits}`", r"0+(?P<digits>[1-9]\d*)(?!\w)"),
    Hint("BadNumber", "a name begins with a letter or `_`, such as `n{word}`", r"(?P<word>\d+[A-Za-z_]\w*)"),
    Hint("BadNumber", "a number is `0`, digits that don't begin with `0`, or `0x` and hexadecimal digits"),
    Hint("NumberTooWide", "the largest number is 2^127 - 1", r""),
    Hint("BadChar", "a text of several characters stands between double quotes: \"{text}\"", r"'(?P<text>[^'\n]{2,})'"),
    Hint("BadChar", "one character stands between single quotes, a quote itself as `'\\''`", r""),
    Hint("OpenText", "the closing quote is missing on this line", r""),
    Hint("BadEscape", "the escapes are `\\n \\r \\t \\0 \\\\ \\' \\\" \\xHH` (two hexadecimal digits); a backslash itself is `\\\\`", r""),
    Hint("OpenComment", "the comment has no `*/`", r""),
    # Tokens that can't stand there.
    Hint("syntax", "expressions nest at most 64 levels of brackets, signs and forms", r"[-!(\[]|P(?:is|len|forall)\b", wanted="DEPTH"),
    Hint("syntax", "`{word}` is a keyword of the language and can't be a name: take another, such as `{word}_`", rf"(?P<word>{KEYWORD})",
         rf"(?:{WORD}|:\))", wanted="NAME"),
    Hint("syntax", "the arguments of a type stand between `(:` and `:)`, such as `Pstring(:',':)`", r"\(", rf"{CALLABLE}"),
    Hint("syntax", "the list of arguments that `(:` opens is closed by `:)`", r"\)", wanted=":)"),
    Hint("syntax", "a computed field begins with `Pcompute`; what must be true of a field stands behind `:`, as in `{name} : {name} == ..`",
         r"=(?!=)", rf"(?P<name>{WORD})", wanted=":"),
    Hint("syntax", "`=` begins no comparison: equality is `==`", r"=(?!=)", wanted="=="),
    Hint("syntax", "both of two conditions is `&&`", r"(?:and|AND)\b", wanted="&&"),
    Hint("syntax", "one of two conditions is `||`", r"(?:or|OR)\b", wanted="||"),
    Hint("syntax", "the options of an array have `&&` between them", r"P(?:sep|term|last)\b", wanted="&&"),
    Hint("syntax", "the options of an array have `&&` between them", r",", wanted="&&", before=r"P(?:sep|term|last)\s*\([^()]*\)"),
    Hint("syntax", "an array is a declaration of its own: `Parray {name}_list {{ {of}[]; }};`, and then a field of that type", r"\[",
         rf"(?P<of>{CALLABLE}|{WORD})\s+(?P<name>{WORD})"),
    Hint("syntax", "an array is a declaration of its own: `Parray list {{ {of}[]; }};`, and then a field of that type", r"\[",
         rf"(?P<of>{CALLABLE}|{WORD}|:\))", wanted="NAME"),
    Hint("syntax", "labels of an enum have `,` between them", r";", r"Penum[^{}]*\{[^{}]*", wanted=","),
    Hint("syntax", "a label is a name; how it is written in the data follows it: `NAME Pfrom(\"text\")`", r"['\"]", r"Penum[^{}]*[{,]"),
    Hint("syntax", "a part ends with `;`, the last one as well", r",", wanted=";"),
    Hint("syntax", "a condition on the whole stands behind the closing brace: `}} Pwhere {{ .. }};`", r"Pwhere\b"),
    Hint("syntax", "an array has one type and its options, and a `;` before its closing brace", r"\}", r"[\])]", wanted=";"),
    Hint("syntax", "a declaration ends with `;` behind its brace", r"(?:P\w+|\Z)", r"\}", wanted=";"),
    Hint("syntax", "an unmarked name can't begin a declaration: the keywords are `Pstruct Punion Parray Penum Ptypedef Popt`",
         rf"(?:{WORD})", wanted="Pstruct"),
    Hint("syntax", "a typedef's condition names its own type and then a variable: `Ptypedef TYPE {name} : {name} x => {{ .. }};`",
         r"=>", rf"Ptypedef[^;]*?(?P<name>{WORD})\s*:\s*{WORD}"),
    Hint("syntax", "a typedef's condition names its own type and a variable first: `Ptypedef TYPE {name} : {name} x => {{ .. }};`",
         r"", rf"Ptypedef[^;{{}}]*?(?P<name>{WORD})\s*:(?:\s*{WORD})?", wanted="NAME"),
    Hint("syntax", "a field has a type and a name: the name is missing", r"[;:]", rf"(?:{WORD}|:\))", wanted="NAME"),
    Hint("syntax", "between elements the data has a character or a text; the end of the record is `Pterm(Peor)`", r"Peor\b", r"Psep\s*\("),
    Hint("syntax", "a case has one constant; a range is a constraint in a union without a switch", r"\.\.", r"Pcase[^:{}]*"),
    Hint("syntax", "`Pdefault` comes once, behind all cases", r"P(?:case|default)\b", r";", wanted="}"),
    Hint("syntax", "the switch is closed by a brace of its own: `}} }};`", r";", r"\}", wanted="}"),
    Hint("syntax", "`Pforall` stands before a bracket: `Pforall (i Pin [a..b] : condition)`", rf"{WORD}", r"Pforall"),
    Hint("syntax", "`Pis` and `Plen` stand before a bracket: `Pis(value, branch)`, `Plen(value)`", r"", r"P(?:is|len)"),
    Hint("syntax", "declarations don't stand in one another: declare it before, and name it here", r"P(?:struct|union|array|enum|typedef)\b"),
    Hint("syntax", "a brace isn't closed", r"\Z", wanted="}"),
    Hint("syntax", "a `;` is missing behind `{last}`", r"", rf"(?P<last>{ONE}|\)|:\)|\])", wanted=";"),
    # Rules.
    Hint("rule 2", "the type comes before the name: `{of} {name};`", rf"(?P<name>{WORD})\s+(?P<of>{CALLABLE}|P\w+)\s*[;:(]"),
    Hint("rule 2", "there is no type for fractions: read `digits '.' digits` as two integers with a literal between them, or all as a text",
         r"P\w*(?:float|double|decimal|num)\w*"),
    Hint("rule 2", "there is no type for dates and times: read their parts as integers with literals between them, or all as a text",
         r"P\w*(?:date|time|stamp)\w*"),
    Hint("rule 2", "a regular expression is no type: `Pstring_in(:\"a-z0-9\":)` reads the longest text of a class", r"P\w*(?:re|regex|RE)\b"),
    Hint("rule 5", "a label or branch is no value: `Pis(value, {name})` asks whether it was chosen", rf"(?P<name>{WORD})", wanted="CHOICE"),
    Hint("rule 9", "a chain groups from the left, and compares a truth value here: write `{low} {first} {middle} && {middle} {second} ..`",
         rf"(?P<low>{ONE})\s*(?P<first><=?|>=?)\s*(?P<middle>{ONE})\s*(?P<second><=?|>=?)"),
    Hint("rule 9", "the text {text} is compared with a number: write the number without quotes", r"(?P<text>'[0-9]'|\"[0-9]*\")"),
    Hint("rule 9", "the text {text} is compared with a number: write the number without quotes", r"",
         r"(?P<text>'[0-9]'|\"[0-9]*\")\s*(?:[<>=!]=|[<>])"),
    Hint("rule 9", "a number is compared with a text: a text stands between quotes", r"\d", r"(?:[<>=!]=|[<>])"),
    Hint("rule 9", "an enum, a union and an optional are no operands, nor are labels: write `Pis({value}, {label})`",
         rf"(?P<value>{WORD})\s*==\s*(?P<label>{WORD})", wanted="CHOICE"),
    Hint("rule 9", "an enum, a union and an optional are no operands: ask `Pis({value}, label)`", rf"(?P<value>{WORD})", wanted="CHOICE"),
    Hint("rule 9", "the other side is a text: write a text between quotes, or compare its length `Plen(..)`", rf"{WORD}\s*(?:[<>=!]=|[<>])\s*['\"]"),
    Hint("rule 9", "one side is a text and the other a number", r"['\"]"),
    Hint("rule 10", "a number or text alone isn't true or false: compare it, as in `{value} > 0`", rf"(?P<value>{WORD})\s*[;}}]"),
    Hint("rule 16", "the length is `Plen({value})`", r"length\b", rf"(?P<value>{WORD})\s*\."),
    Hint("rule 23", "put `Precord` before the declaration of the type that one record has"),
]


def hint(verdict, before, at, wanted=()):
    """The hint for a verdict at a place, or None."""
    found = (hint.told(verdict, before, at, wanted) for hint in HINTS)
    return next((text for text in found if text), None)
