#!/usr/bin/env python3
"""Checks the tools of `pads explain`: the grammar, on the rows of test_trees (what derives a tree, and the first token of
each fault); the table of mistakes (mistakes.txt), of which each report must mark the place and say the words of its row,
and where a program is there its verdict must be the row's as well; and the examples, of which none has a warning.

    tools/check.py [PROGRAM] [--show]      with --show it prints all reports
"""
import re
import subprocess
import sys
import tempfile
from pathlib import Path
import explain
import grammar
import hints
import warn

HERE = Path(__file__).resolve().parent
TREES = HERE.parent / "crates" / "test_trees" / "data" / "descriptions.txt"
EXAMPLES = HERE.parent / "examples"


def rows(text):
    """Title, description, place of the mark, verdict and words of each row."""
    for block in re.split(r"\n\n+", text):
        lines = block.strip().splitlines()
        marked = "\n".join(line[2:] for line in lines if line.startswith(">")).encode()
        rest = [line for line in lines if not line.startswith(("#", ">"))]
        if rest:
            yield lines[0][2:], marked.replace(b"@@", b""), marked.index(b"@@"), rest[0], [line[5:] for line in rest[1:]]


def verdict_line(description, at, verdict):
    """The line that the program writes for the verdict at this place."""
    number = description.token_at(at)
    at_end = at == description.end()
    if verdict == "syntax":
        number = len(description.tokens) - 1 if at_end else number
        return f"pads: refused: description syntax at token {number} byte {description.tokens[number].begin}"
    if verdict.startswith("rule"):
        return f"pads: refused: description {verdict} at byte {len(description.text) if verdict == 'rule 23' else at}"
    return verdict if verdict.startswith("accepted") else f"pads: refused: description lexical {verdict} at byte {at}"


def report(description, line):
    """What `pads explain` writes for the verdict."""
    if line.startswith("pads:"):
        return explain.refused("it", description, line)
    found = warn.warnings(description.tree, description.tokens)
    return "\n".join(explain.shown("it", description, token.begin, f"warning: {what}", [more]) for token, what, more in found)


def faults_of(data, at, verdict, words, program):
    """What is wrong with a row."""
    description = explain.Description(data)
    line = verdict_line(description, at, verdict)
    told = report(description, line)
    flat = re.sub(r"\s+", " ", told)
    row, column = description.place(at)
    wrong = [f"doesn't say: {word}" for word in words if word not in flat]
    if not told.startswith(f"it:{row}:{column}: "):
        wrong.append(f"isn't at {row}:{column}")
    marks = [index for index, text in enumerate(told.split("\n")) if re.fullmatch(r"\s*\^~*", text)]
    begin = data.rfind(b"\n", 0, at) + 1
    if len(marks) != 1 or told.split("\n")[marks[0]].index("^") != 4 + len(data[begin:at].decode()):
        wrong.append("marks no place, or another")
    if program:
        with tempfile.NamedTemporaryFile(suffix=".pads") as file:
            file.write(data)
            file.flush()
            run = subprocess.run([program, "check", file.name], capture_output=True, text=True)
        said = (run.stdout + run.stderr).strip()
        if said != line:
            wrong.append(f"the program says: {said}, and the row: {line}")
    return wrong, told


def grammar_faults():
    """Rows of test_trees that the grammar derives otherwise, and how many rows there are."""
    text = re.sub(r"\n\| ?", "\n", re.sub(r"^#.*\n", "", TREES.read_text(), flags=re.M))
    found = re.findall(r"^tree@?(?: |(?=\n))((?:.*\n)*?) {4}(token (\d+) byte \d+\n)?", text, re.M)
    wrong = []
    for description, fault, number in found:
        derivation = grammar.Derivation(grammar.tokens_of(description[:-1]))
        if (derivation.furthest != int(number) or derivation.tree is not None) if fault else derivation.tree is None:
            wrong.append(f"the grammar derives otherwise: {description.strip()}")
    return wrong, len(found)


def example_faults():
    """Descriptions of the examples that the grammar doesn't derive, or that have a warning."""
    wrong = []
    for file in sorted([*EXAMPLES.glob("*.pads"), *EXAMPLES.glob("cookbook/*.pads")]):
        description = explain.Description(file.read_bytes())
        told = warn.warnings(description.tree, description.tokens) if description.tree else [(None, "no tree", "")]
        wrong += [f"{file.name}: {what}" for _, what, _ in told]
    return wrong


def page_faults():
    """Rules and kinds of bytes that docs/RULES.md has no text for."""
    page = explain.runs.page("RULES.md")
    numbers, kinds = re.findall(r"^\*\*(\d+), `", page, re.M), re.findall(r"^\| `(\w+)` \| ", page, re.M)
    wrong = [f"rule {number} has no text" for number in numbers if not all(explain.rule_text(int(number)))]
    return wrong + [f"{kind} has no hint" for kind in kinds if not hints.hint(kind, "", "@")]


def main(words):
    program, count = next((word for word in words if word != "--show"), None), 0
    wrong, trees = grammar_faults()
    wrong += example_faults() + page_faults()
    print("\n".join([*wrong, f"{trees} descriptions of test_trees by the grammar, {len(wrong)} otherwise"]))
    failed = len(wrong)
    for title, data, at, verdict, says in rows((HERE / "mistakes.txt").read_text(encoding="utf-8")):
        count += 1
        wrong, told = faults_of(data, at, verdict, says, program)
        failed += bool(wrong)
        if wrong or "--show" in words:
            print("\n".join([f"== {title}", *wrong, told, ""]))
    print(f"{count} mistakes, {failed} explained otherwise" + ("" if program else " (no program: its verdicts weren't asked)"))
    return 1 if failed else 0


if __name__ == "__main__":
    sys.exit(main(sys.argv[1:]))
