#!/usr/bin/env python3
"""usage: pads csv DESC FIELD .. [OPTION ..] < INPUT

Reads records from standard input by the description in the file DESC, and writes these fields of each clean record
as CSV (RFC 4180, lines ended by a newline) below a line of their names. A field is the way to it from the record, as
`request.meth`, `events[0].tstamp`, with `$.` before it or without; `.` and `$` are the whole value. What isn't there is empty; what is or holds one scalar, as
an optional or a union does, is that; another struct or an array is its JSON. Clean records that have none of the
fields, such as headers and comments, are left out. Records that aren't clean are left out too, and counted on standard
error; with --all they are written as well, what is missing in them empty. Three fields come from the line and not from
the value: @record (its number, from 0), @offset and @class.

A text in ASCII coding is written as the bytes that it had. Other options and the exit statuses are those of `pads
parse` (docs/COMMANDS.md); a field that no record has is a usage error (2).
"""
import json
import re
import sys
import runs

OF_LINE = {"@record": lambda row: row["record"], "@offset": lambda row: row["span"][0], "@class": lambda row: row["class"]}
ABSENT = object()


class WrongField(Exception):
    """A word that names no field."""


def steps(field):
    """The steps to a field: names and numbers."""
    if not re.fullmatch(r"\.|\$|@\w+|(\$\.?)?(\w+|\[\d+\])(\.\w+|\[\d+\])*", field):
        raise WrongField(f"{field} isn't a field, such as request.uri or events[0]; records are read from standard input")
    return [int(number) if number else name for name, number in re.findall(r"(\w+)|\[(\d+)\]", field.lstrip("$."))] \
        if not field.startswith("@") else []


def reached(value, way):
    """What lies at the end of the way, or ABSENT."""
    for step in way:
        if isinstance(step, int) and isinstance(value, list) and step < len(value):
            value = value[step]
        elif isinstance(step, str) and isinstance(value, dict) and step in value:
            value = value[step]
        elif isinstance(step, str) and isinstance(value, dict) and isinstance(value.get("some"), dict) and step in value["some"]:
            value = value["some"][step]
        else:
            return ABSENT
    return value


def cell(value):
    """A value as the text of a cell."""
    while isinstance(value, dict) and len(value) == 1:
        inner = next(iter(value.values()))
        if isinstance(inner, list) or isinstance(inner, dict) and len(inner) > 1:
            break
        value = inner
    if value is ABSENT or value is None:
        return ""
    text = value if isinstance(value, str) else json.dumps(value, ensure_ascii=False, separators=(",", ":"))
    return '"' + text.replace('"', '""') + '"' if re.search('[",\r\n]', text) or text.strip() != text else text


def columns(fields):
    """For each field what gives it from a row."""
    found = []
    for field in fields:
        if field.startswith("@") and field not in OF_LINE:
            raise WrongField(f"there is no field {field}, only {' '.join(OF_LINE)}")
        way = steps(field)
        found.append(OF_LINE.get(field) or (lambda row, way=way: reached(row["value"], way)))
    return found


def main(words):
    options, names = runs.split_words(words)
    if len(names) < 2 or "--help" in options:
        return runs.usage(__doc__, options)
    description, *fields = names
    every, options = "--all" in options, [word for word in options if word != "--all"]
    try:
        ways = columns(fields)
    except WrongField as wrong:
        print(f"pads: csv: {wrong}", file=sys.stderr)
        return 2
    met, left, count = [False] * len(fields), 0, 0
    coding = "utf-8" if runs.option(options, "coding", "ascii") == "ebcdic" else "latin-1"
    out = sys.stdout.buffer
    run = runs.Run(description, options, sys.stdin.buffer)
    head = (",".join(map(cell, fields)) + "\n").encode()
    for line in run.lines():
        row = json.loads(line)
        count += 1
        if row["class"] != "Ok" and not every:
            left += 1
            continue
        values = [way(row) for way in ways]
        own = [value for value, field in zip(values, fields) if field not in OF_LINE]
        if row["class"] == "Ok" and own and all(value is ABSENT for value in own):
            continue
        met = [before or value is not ABSENT for before, value in zip(met, values)]
        out.write(head + (",".join(map(cell, values)) + "\n").encode(coding))
        head = b""
    if run.status > runs.DIRTY:
        out.flush()
        runs.told(run, description)
        return run.status
    out.write(head)
    out.flush()
    if left:
        print(f"pads: csv: {left} of {count} records aren't clean and are left out", file=sys.stderr)
    lost = [field for field, seen in zip(fields, met) if not seen] if count > left else []
    if lost:
        print(f"pads: csv: no record has {' '.join(lost)}", file=sys.stderr)
        return 2
    return run.status


if __name__ == "__main__":
    runs.guarded(main)
