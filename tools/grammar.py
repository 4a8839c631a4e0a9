"""Reads grammar.txt, cuts a description into tokens, and derives it: a tree, or the tokens that could have stood
where no description goes on."""
import re
import sys
from pathlib import Path

KEYWORDS = set("Pstruct Punion Parray Penum Popt Ptypedef Pswitch Pcase Pdefault Pwhere Precord Psource Precursive Psep Pterm "
               "Plast Peor Pforall Pin Pcompute Pfrom Pis Plen true false".split())
KINDS = ("NAME", "NUMBER", "CHAR", "TEXT", "END")
TOKEN = re.compile(r"""(?P<gap>[\t\n\r ]+|/\*.*?\*/|//[^\n]*|/-[^\n]*)|(?P<NAME>[A-Za-z_]\w*)
    |(?P<NUMBER>0x[0-9a-fA-F]+|\d+)|(?P<CHAR>'(?:[^'\\\n]|\\x[0-9a-fA-F]{2}|\\.)')|(?P<TEXT>"(?:[^"\\\n]|\\.)*")
    |(?P<mark>\(:|:\)|\.\.|=>|==|!=|<=|>=|&&|\|\||[{}\[\]();,:.=!<>+\-*/%$])""", re.X | re.S | re.A)


class Token:
    """A kind (one of KINDS, or the keyword or mark itself), and the bytes that it stands on."""

    def __init__(self, kind, begin, end, spelled):
        self.kind, self.begin, self.end, self.spelled = kind, begin, end, spelled


class Tree:
    """What a rule derives: trees and tokens, from token `begin` up to token `end`."""

    def __init__(self, rule, begin):
        self.rule, self.begin, self.end, self.kids = rule, begin, begin, []

    def all(self, rule):
        """The trees of this rule in this one, from the left."""
        found = [self] if self.rule == rule else []
        return found + [tree for kid in self.kids if isinstance(kid, Tree) for tree in kid.all(rule)]


def tokens_of(text):
    """The tokens of a text (one character for each byte), with the end token; where it breaks off, those before."""
    at, found = 0, []
    while at < len(text):
        match = TOKEN.match(text, at)
        if not match:
            return found
        kind, spelled = match.lastgroup, match[0]
        if kind == "mark" or spelled in KEYWORDS:
            kind = spelled
        if kind != "gap":
            found.append(Token(kind, at, match.end(), spelled))
        at = match.end()
    return found + [Token("END", at, at, "")]


# ---- The rules -------------------------------------------------------------------------------------

def read_rules(text):
    """The rules by name, each a nested tuple; what sets of tokens are called; how deep expressions may be."""
    text = re.sub(r"^#.*\n", "", text, flags=re.M)
    called = [(words.strip(), set(kinds.split())) for words, kinds in re.findall(r"^called (.*): (.*)$", text, re.M)]
    text = re.sub(r"^called .*\n", "", text, flags=re.M)
    levels = int(re.search(r"^levels (\d+)$", text, re.M)[1])
    text = re.sub(r"^levels .*\n", "", text, flags=re.M)
    rules = {}
    for name, body in re.findall(r"^(\w+) *= *(.*(?:\n[ \t]+.*)*)", text, re.M):
        words = re.findall(r'"[^"]*"|\w+|[][(){}|<>]', body)
        rules[name], rest = either(words, 0)
        assert rest == len(words), name
    return rules, called, levels


def either(words, at):
    arms = []
    while True:
        arm, at = row(words, at)
        arms.append(arm)
        if at == len(words) or words[at] != "|":
            return (arms[0] if len(arms) == 1 else ("either", arms)), at
        at += 1


def row(words, at):
    items = []
    while at < len(words) and words[at] not in "|)]}>":
        word = words[at]
        at += 1
        if word in "([{<":
            inner, at = either(words, at)
            items.append({"(": inner, "[": ("maybe", inner), "{": ("many", inner), "<": ("deeper", inner)}[word])
            at += 1
        elif word[0] == '"':
            items.append(("token", word[1:-1]))
        else:
            items.append(("token" if word in KINDS else "rule", word))
    return ("row", items), at


RULES, CALLED, LEVELS = read_rules((Path(__file__).resolve().parent / "grammar.txt").read_text())


# ---- Deriving --------------------------------------------------------------------------------------

class Derivation:
    """Derives tokens. `furthest` is the last token that was looked at, `wanted` the kinds that were asked for there,
    `deep` the last token at which no level was left."""

    def __init__(self, tokens, start="desc"):
        sys.setrecursionlimit(1000000)
        self.tokens, self.furthest, self.wanted, self.level, self.deep = tokens, 0, set(), 0, None
        self.tree = self.rule(start, 0)

    def ask(self, kind, at):
        if at > self.furthest:
            self.furthest, self.wanted = at, set()
        if at == self.furthest:
            self.wanted.add(kind)
        return at < len(self.tokens) and self.tokens[at].kind == kind

    def rule(self, name, at):
        tree = Tree(name, at)
        end = self.read(RULES[name], at, tree.kids)
        if end is None:
            return None
        tree.end = end
        return tree

    def read(self, form, at, kids):
        """Where the form ends that is read from this token on, or None; what it derives goes to `kids`."""
        word, inner = form
        if word == "token":
            if not self.ask(inner, at):
                return None
            kids.append(self.tokens[at])
            return at + 1
        if word == "rule":
            tree = self.rule(inner, at)
            if tree is None:
                return None
            kids.append(tree)
            return tree.end
        if word == "row":
            for item in inner:
                at = self.read(item, at, kids)
                if at is None:
                    return None
            return at
        if word == "deeper":
            return self.deeper(inner, at, kids)
        if word == "either":
            return next((end for end in (self.kept(arm, at, kids) for arm in inner) if end is not None), None)
        while True:                                        # maybe, many
            end = self.kept(inner, at, kids)
            if end is None or end == at:
                return at
            at = end
            if word == "maybe":
                return at

    def deeper(self, form, at, kids):
        if self.level == LEVELS:
            self.deep = at
            return None
        self.level += 1
        end = self.read(form, at, kids)
        self.level -= 1
        return end

    def kept(self, form, at, kids):
        """As `read`; where nothing is read, nothing is added."""
        size = len(kids)
        end = self.read(form, at, kids)
        if end is None:
            del kids[size:]
        return end


def wanted_at(tokens, number):
    """The kinds that could have stood in the place of this token, and DEPTH where no level was left at it."""
    derivation = Derivation(tokens[:number + 1])
    if derivation.furthest != number or derivation.tree is not None:
        return set()
    return derivation.wanted | ({"DEPTH"} if derivation.deep == number else set())


def called(kinds):
    """A set of kinds in words, the longest sets first."""
    left, words = set(kinds) - {"DEPTH"}, []
    for name, whole in CALLED:
        if whole <= left:
            words.append(name)
            left -= whole
    return [f"`{kind}`" for kind in sorted(left)] + words
