#!/usr/bin/env python3
"""usage: pads explain DESC [--coding=CODING]

Reads the description in the file DESC. If it is refused: its place as FILE:LINE:COLUMN (from 1, columns in bytes),
the line with a mark under the place, what is wrong, and how it is mended; for a token that can't stand there also
which could. If it is accepted: how many declarations it has, and warnings of what can never be read by it. The exit
status is that of `pads check` (docs/COMMANDS.md).
"""
import difflib
import re
import subprocess
import sys
import textwrap
import grammar
import hints
import runs
import warn

VERDICT = re.compile(r"pads: refused: description (?:lexical (\w+) at byte (\d+)"
                     r"|syntax at token (\d+) byte (\d+)|rule (\d+) at byte (\d+))")
LONG = 160
CHOICES = {"Penum", "Punion", "Popt"}


# ---- The page of rules -----------------------------------------------------------------------------

def rule_text(number):
    """Name and statement of a rule, and what the page says of breaking and mending it."""
    match = re.search(rf"^\*\*{number}, `(\w+)`: (.*?)\*\*(.*)\n?(.*)$", runs.page("RULES.md"), re.M)
    return match[1], match[2].rstrip(".:"), (match[3] or match[4]).strip()


def kind_text(kind):
    """What the page says of a kind of bytes that are no token."""
    return re.search(rf"^\| `{kind}` \| (.*) \|$", runs.page("RULES.md"), re.M)[1]


# ---- The text of a description ---------------------------------------------------------------------

class Description:
    """A text, its tokens, and its tree where it has one."""

    def __init__(self, data):
        self.text = data.decode("latin-1")
        self.tokens = grammar.tokens_of(self.text)
        self.tree = grammar.Derivation(self.tokens).tree if self.tokens and self.tokens[-1].kind == "END" else None
        self.blanked = self.without_comments()

    def without_comments(self):
        """The text with blanks in the place of its comments."""
        kept, at = [], 0
        for token in self.tokens:
            kept += [" " * (token.begin - at), token.spelled]
            at = token.end
        return "".join(kept) + self.text[at:]

    def place(self, at):
        """Line and column of a byte, from 1."""
        return self.text.count("\n", 0, at) + 1, at - self.text.rfind("\n", 0, at)

    def token_at(self, at):
        return next((number for number, token in enumerate(self.tokens) if token.begin == at), None)

    def end(self):
        """The place behind the last token."""
        return self.tokens[-2].end if len(self.tokens) > 1 else 0

    def marked(self, at, size):
        """The line of a byte, and a line that marks so many bytes from it on."""
        begin = self.text.rfind("\n", 0, at) + 1
        end = begin + len(self.text[begin:].split("\n", 1)[0])
        head, tail = "", ""
        if end - begin > LONG:                             # of a long line what is around the place
            first, last = max(begin, at - LONG // 2), min(end, at + LONG // 2)
            head, tail, begin, end = ".. " * (first > begin), " .." * (last < end), first, last
        wide = lambda part: part.encode("latin-1").decode("utf-8", "replace")
        gap = re.sub(r"[^\t]", " ", head + wide(self.text[begin:at]))
        mark = "^" + "~" * (len(wide(self.text[at:min(at + size, end)])) - 1)
        return f"    {head}{wide(self.text[begin:end])}{tail}\n    {gap}{mark}"

    def declaration(self, at):
        """The tree of the declaration around a byte."""
        found = [decl for decl in self.tree.all("decl") if self.tokens[decl.begin].begin <= at] if self.tree else []
        return found[-1] if found else None


def declared(description):
    """Each declaration's keyword, and the kind of each label or branch, by name."""
    forms, choices = {}, set()
    for decl in description.tree.all("decl") if description.tree else []:
        body = next(kid for kid in decl.kids if isinstance(kid, grammar.Tree))
        forms[next(kid.spelled for kid in body.kids if isinstance(kid, grammar.Token) and kid.kind == "NAME")] = body.kids[0].kind
        choices |= {label.kids[0].spelled for label in body.all("label")}
        if body.rule == "union":
            choices |= {branch.kids[1].spelled for branch in body.all("branch")}
    return forms, choices


def fields(decl):
    """The named parts of a declaration, each with its type's tree."""
    return {branch.kids[1].spelled: branch.kids[0] for branch in decl.all("branch")} if decl else {}


def near(description, rule, at):
    """Names that may be meant where a rule about names is broken."""
    name, decl = description.tokens[description.token_at(at)].spelled, description.declaration(at)
    forms, choices = declared(description)
    if rule in (2, 3):
        known = [*warn.BASES, *(form for form in forms)]
    elif rule == 5:
        known = [token.spelled for token in description.tokens[decl.begin:decl.end] if token.kind == "NAME"]
        known += ["elts", "length"] if decl.all("array") else []
        known = [word for word in known if word not in warn.BASES and word not in forms]
    else:
        known = [*choices, *(field for decl in description.tree.all("decl") for field in fields(decl))]
    return [word for word in difflib.get_close_matches(name, set(known) - {name}, 3, 0.65)]


def choice_at(description, at):
    """Whether the name at a byte is of an enum, a union or an optional, or one of their labels and branches."""
    number, decl = description.token_at(at), description.declaration(at)
    forms, choices = declared(description)
    name = description.tokens[number].spelled
    of = fields(decl).get(name)
    if of is None:
        return name in choices
    names = [kid.spelled for kid in of.kids if isinstance(kid, grammar.Token)]
    return names[0] == "Popt" or forms.get(names[0]) in CHOICES


# ---- What is told ----------------------------------------------------------------------------------

def wrapped(text, lead="  "):
    return textwrap.fill(text, 110, initial_indent=lead, subsequent_indent=lead, break_on_hyphens=False, break_long_words=False)


def shown(file, description, at, what, notes):
    """The report of one place."""
    number = description.token_at(at)
    token = description.tokens[number] if number is not None else None
    size = token.end - at if token else 1
    line, column = description.place(at)
    notes = [wrapped(note) for note in notes if note]
    return "\n".join([f"{file}:{line}:{column}: {what}", description.marked(at, max(size, 1)), *notes])


def syntax(file, description, number, at):
    """A token that can't stand where it does."""
    token, before = description.tokens[number], description.tokens[number - 1] if number else None
    wanted = grammar.wanted_at(description.tokens, number)
    place = description.end() if token.kind == "END" else at
    could = grammar.called(wanted)
    follows = before and "\n" in description.text[before.end:place]
    line, column = description.place(before.begin) if before else (0, 0)
    what = f"`{token.spelled}` can't stand here" if token.spelled else "the description can't end here"
    hint = hints.hint("syntax", description.blanked[:at], description.blanked[at:], wanted)
    return shown(file, description, place, f"syntax: {what}", [
        f"here could stand: {', '.join(could[:-1]) + ' or ' + could[-1] if len(could) > 1 else could[0]}" if could else "",
        f"it follows `{before.spelled}` at {line}:{column}" if follows else "",
        f"perhaps: {hint}" if hint else ""])


def broken(file, description, rule, at):
    """A broken rule."""
    name, statement, mend = rule_text(rule)
    at = min(at, description.end()) if rule == 23 else at
    number = description.token_at(at)
    is_name = number is not None and description.tokens[number].kind == "NAME"
    wanted = {"CHOICE"} if is_name and rule in (5, 9) and choice_at(description, at) else ()
    hint = hints.hint(f"rule {rule}", description.blanked[:at], description.blanked[at:], wanted)
    alike = near(description, rule, at) if is_name and rule in (2, 3, 5, 16, 17) and not hint else []
    return shown(file, description, at, f"rule {rule}, {name}: {statement}", [
        f"here: {hint}" if hint else "",
        f"perhaps {' or '.join(f'`{word}`' for word in alike)} is meant" if alike else "",
        f"the rule: {mend}"])


def refused(file, description, notes):
    """The report of a refused description, or None where its last words are others."""
    match = VERDICT.search(notes)
    if not match:
        return None
    kind, at, token, byte, rule, where = match.groups()
    if kind:
        at = int(at)
        hint = hints.hint(kind, description.text[:at], description.text[at:])
        return shown(file, description, at, f"{kind}: here is {kind_text(kind)}", [f"perhaps: {hint}" if hint else ""])
    if token:
        return syntax(file, description, int(token), int(byte))
    return broken(file, description, int(rule), int(where))


def main(words):
    options, names = runs.split_words(words)
    if len(names) != 1 or "--help" in options:
        return runs.usage(__doc__, options)
    file = names[0]
    run = subprocess.run([runs.program(), "check", file, *options], capture_output=True)
    notes = run.stderr.decode(errors="replace")
    if run.returncode not in (0, 3):
        sys.stderr.write(notes)
        return run.returncode
    if "too long" in notes:
        print(f"{file}: {notes.split(': ', 2)[-1].strip()}: it may have 1,048,576 bytes")
        return 3
    with open(file, "rb") as it:
        description = Description(it.read())
    if run.returncode == 3:
        print(refused(file, description, notes) or notes.rstrip())
        return 3
    found = warn.warnings(description.tree, description.tokens)
    print(f"{file}: {run.stdout.decode().strip()}" + (f", {len(found)} warnings" if len(found) > 1 else ", 1 warning" if found else ""))
    for token, what, more in found:
        print(shown(file, description, token.begin, f"warning: {what}", [more]))
    return 0


if __name__ == "__main__":
    runs.guarded(main)
