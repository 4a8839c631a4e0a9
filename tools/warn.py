"""Warnings of an accepted description: what can never be read by it."""
import re
import grammar

KINDS = [f"{sign}int{bits}" for sign in ("", "u") for bits in (8, 16, 32, 64)]
TEXTS = [*KINDS, *(f"{kind}_FW" for kind in KINDS), "string", "string_FW", "string_in", "char", "ip"]
BASES = [*(f"{prefix}{text}" for prefix in ("P", "Pa_", "Pe_") for text in TEXTS),
         *(f"{prefix}{kind}" for prefix in ("Pb_", "Psbl_", "Psbh_") for kind in KINDS), "Ppacked", "Pupacked", "Pzoned", "Puzoned"]
ESCAPES = {"n": "\n", "r": "\r", "t": "\t", "0": "\0"}


def characters(token):
    """What stands between the quotes of a literal."""
    return re.sub(r"\\(x[0-9a-fA-F]{2}|.)", lambda m: chr(int(m[1][1:], 16)) if len(m[1]) == 3 else ESCAPES.get(m[1], m[1]),
                  token.spelled[1:-1], flags=re.S)


def constant(tokens):
    """The text or number that these tokens are, or None where they name something."""
    if len(tokens) == 1 and tokens[0].kind in ("CHAR", "TEXT"):
        return characters(tokens[0])
    if all(token.kind in ("NUMBER", "-", "+", "*", "(", ")") for token in tokens):
        return eval(" ".join(token.spelled for token in tokens), {"__builtins__": {}})    # digits, signs and brackets
    return None


def class_fault(text):
    """What is wrong with the text of a class, or None."""
    if not text:
        return "a class without characters"
    at = 0
    while at < len(text):
        if text[at + 1:at + 2] == "-" and at + 2 < len(text):
            if text[at] > text[at + 2]:
                return f"`{text[at:at + 3]}` is no range: it begins behind its end"
            at += 3
        else:
            at += 1
    return None


NEVER = "every record gets BAD_PARAM here."


def argument_warning(name, value):
    """What is wrong with the constant argument of a base type: a statement and a note, or None."""
    text = isinstance(value, str)
    if re.fullmatch(r"P(?:[ae]_)?string", name) and text and len(value) != 1:
        return (f"a stop is one character, and this text has {len(value)}",
                NEVER + " Stop at its first character, or read up to a text of several: docs/COOKBOOK.md.")
    if name.endswith("_in") and text:
        fault = class_fault(value)
        if fault:
            return f"a class that is none: {fault}", NEVER + " A class is characters and ranges, such as \"a-z_\"; `-` itself comes last."
        if value[0] == "^" and len(value) > 1 or value[0] == "[" and value[-1] == "]":
            return (f"`{value[0]}` stands for itself in a class", "A class is characters and ranges, such as \"a-z_\": it has no "
                    "brackets, and can't be negated. `Pstring(:c:)` reads up to a character.")
    if name.endswith("_FW") and not text and value < (0 if "string" in name else 1):
        return f"a width of {value}", NEVER + f" The least width is {0 if 'string' in name else 1}."
    if re.match(r"P(?:b|sbl|sbh)_", name) and not text and not 1 <= value <= 8:
        return f"a binary integer of {value} bytes", NEVER + " It has 1 to 8 bytes."
    if re.fullmatch(r"Pu?(?:packed|zoned)", name) and not text and not 1 <= value <= 18:
        return f"a decimal of {value} digits", NEVER + " It has 1 to 18 digits."
    return None


def used(tree, tokens):
    """Name, arguments (the tokens of each) and whether it is optional, of a type where it is used."""
    words = [kid for kid in tree.kids if isinstance(kid, grammar.Token)]
    optional = words[0].kind == "Popt"
    name = words[1] if optional else words[0]
    return name, [tokens[arg.begin:arg.end] for arg in tree.kids if isinstance(arg, grammar.Tree)], optional


def takes_all(tree, tokens):
    """Whether a type reads without a fault whatever comes: a text up to a character, the rest, an optional."""
    name, args, optional = used(tree, tokens)
    if optional:
        return True
    if not re.fullmatch(r"P(?:[ae]_)?string", name.spelled):
        return False
    value = constant(args[0])
    return args[0][0].kind == "Peor" or isinstance(value, str) and len(value) == 1


def unread_branches(union, tokens):
    """Branches behind one that always reads."""
    branches = [kid for kid in union.kids if isinstance(kid, grammar.Tree) and kid.rule == "branch"]
    for branch, after in zip(branches, branches[1:]):
        if len(branch.kids) == 3 and takes_all(branch.kids[0], tokens):
            return [(tokens[after.begin], f"the branch `{branch.kids[1].spelled}` before always reads, so this one never does",
                     "The first branch that reads without a fault is taken: put it last, or give it a constraint.")]
    return []


def unread_literals(struct, tokens):
    """Literals behind a part that takes the rest of the record."""
    parts = [kid for kid in struct.kids if isinstance(kid, grammar.Tree) and kid.rule == "part"]
    for part, after in zip(parts, parts[1:]):
        inner = part.kids[0]
        if isinstance(inner, grammar.Tree) and inner.rule == "branch" and not used(inner.kids[0], tokens)[2]:
            args = used(inner.kids[0], tokens)[1]
            if args and args[0][0].kind == "Peor" and tokens[after.begin].kind in ("CHAR", "TEXT"):
                return [(tokens[after.begin], f"`{inner.kids[1].spelled}` takes the rest of the record, so this never comes",
                         "Every record gets MISSING_LITERAL here. Read the text up to a character instead: `Pstring(:c:)`.")]
    return []


def warnings(tree, tokens):
    """Each warning: the token that it stands at, a statement, and a note."""
    found = []
    for of in tree.all("type"):
        name, args, _ = used(of, tokens)
        if name.spelled in BASES and args:
            value = constant(args[0])
            fault = argument_warning(name.spelled, value) if value is not None else None
            found += [(args[0][0], *fault)] if fault else []
    for array in tree.all("array"):
        size = next((kid for kid in array.kids if isinstance(kid, grammar.Tree) and kid.rule == "expr"), None)
        value = constant(tokens[size.begin:size.end]) if size else None
        if isinstance(value, int) and value < 0:
            found.append((tokens[size.begin], f"an array of {value} elements", "Every record gets ARRAY_BOUND here."))
    for union in tree.all("union"):
        found += unread_branches(union, tokens)
    for struct in tree.all("struct"):
        found += unread_literals(struct, tokens)
    return sorted(found, key=lambda warning: warning[0].begin)
