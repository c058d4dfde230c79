#!/usr/bin/env python3
"""Writes src/table.rs and src/values.rs: the calls as the command has them, and the values of their words.

    { kmip_call --grammar; kmip_call --operations; } | clients/command/generate.py [--check]

It stands on what the program prints of its two tables, on calls.toml beside it, and on the names of
tables/enumerations.toml. With --check it writes nothing, and the status is 1 where a file differs.
"""

import json
import sys
import textwrap
import tomllib
from pathlib import Path

HERE = Path(__file__).resolve().parent
TABLES = HERE.parent.parent / "tables"
sys.path.insert(0, str(TABLES))
from spelling import spelled  # noqa: E402

# Which enumeration a kind of the typed calls is, and which an option or a word of the others.
KINDS = {
    "Algorithm": "CryptographicAlgorithm", "Format": "KeyFormatType", "Hash": "HashingAlgorithm",
    "Padding": "PaddingMethod", "Reason": "RevocationReasonCode", "State": "State",
    "ObjectType": "ObjectType", "Uses": "CryptographicUsageMask",
}
OPTIONS = {
    "mode": "BlockCipherMode", "padding": "PaddingMethod", "hash": "HashingAlgorithm",
    "role": "KeyRoleType", "signature-algorithm": "DigitalSignatureAlgorithm",
    "algorithm": "CryptographicAlgorithm", "cipher": "CryptographicAlgorithm", "type": "ObjectType",
    "request-type": "CertificateRequestType", "METHOD": "DerivationMethod",
    "CURVE": "RecommendedCurve", "ALGORITHM": "CryptographicAlgorithm",
}
SIMPLE = {
    "Int": "Number", "Text": "Text", "Hex": "Data", "Request": "Data", "Identifier": "Id",
    "Seconds": "Date", "Flag": "Flag", "Attribute": "Attribute",
}
FORMS = {
    "ID": "Id", "DATA": "Data", "MAC": "Data", "SIGNATURE": "Data", "HEX": "Data", "COUNT": "Number",
    "BITS": "Number", "N": "Number", "TEXT": "Text", "true|false": "Truth", "SECONDS": "Number",
    "PRIVATE-NAME": "Text", "PUBLIC-NAME": "Text",
}
GROUPS = ("object", "new", "data", "server", "pending")
# Those that are words alone, and no JSON, and what the command has in another form.
LEFT_OUT = {"operation", "message"}


def text(value):
    return '"' + value.replace("\\", "\\\\").replace('"', '\\"') + '"'


def member(name, value):
    """A member that is a text, in lines of at most 100 columns."""
    front = f"        {name}: "
    lines = textwrap.wrap(text(value), 97 - len(front), break_long_words=False, break_on_hyphens=False)
    return (" \\\n" + " " * (len(front) + 1)).join([front + lines[0], *lines[1:]]) + ","


def members(name, items):
    """A member that is a list, in one line where it is short."""
    line = f"        {name}: &[{', '.join(items)}],"
    if len(line) <= 100:
        return [line]
    return [f"        {name}: &[", *(f"            {item}," for item in items), "        ],"]


class Names:
    """The lists of names, each written once."""

    def __init__(self):
        self.lists = {}
        with open(TABLES / "enumerations.toml", "rb") as file:
            self.tables = tomllib.load(file)

    def values(self, title):
        """The values of an enumeration: the name that is sent, and its other spellings."""
        for line in self.tables[title]["values"].values():
            line = [line] if isinstance(line, str) else line
            names = list(dict.fromkeys([*line[1:2], spelled(line[0])]))
            yield names[0], names[1:]

    def of(self, const, items):
        """The kind of a list, which gets this name."""
        items = tuple((name, tuple(others)) for name, others in items)
        for known, have in self.lists.items():
            if have == items:
                return known
        while const in self.lists:
            const += "_ALL"
        self.lists[const] = items
        return const

    def written(self):
        for const, items in self.lists.items():
            yield f"pub static {const}: [Value; {len(items)}] = ["
            for name, others in items:
                yield f"    value({text(name)}, &[{', '.join(map(text, others))}]),"
            yield "];"


def upper(title):
    return "".join("_" + c if c.isupper() and at else c for at, c in enumerate(title)).upper()


class Table:
    """What the program prints, as words and options with their kinds."""

    def __init__(self, lines):
        table = json.loads(lines[0])
        self.names, self.known = Names(), table["names"]
        self.typed = [call for call in table["calls"] if call["name"] not in LEFT_OUT]
        self.attributes = [self.option(one) for one in table["attributes"]]
        # (a line of help is indented)
        self.forms = [pair for pair in zip(lines[1:], lines[2:]) if pair[0].strip() and pair[0][0] != " "]

    def kind(self, kind):
        """That of a typed call's word."""
        if kind in SIMPLE:
            return SIMPLE[kind]
        title = KINDS.get(kind)
        others = {name: rest for name, rest in self.names.values(title)} if title else {}
        items = [(name, others.get(name, ())) for name in self.known[kind]]
        const = self.names.of(upper(title or kind), items)
        return f"{'Names' if kind == 'Uses' else 'Name'}(&{const})"

    def option(self, one):
        return one["name"].rstrip("="), self.kind(one["kind"]), one["is_needed"]

    def form_kind(self, name, value):
        """That of an option, or of a word, of a call of --operations."""
        if value == "USES":
            return self.kind("Uses")
        if name in OPTIONS and value in ("NAME", name):
            title = OPTIONS[name]
            return f"Name(&{self.names.of(upper(title), self.names.values(title))})"
        return FORMS.get(value, "Text")

    def typed_rows(self):
        for call in self.typed:
            rest = call["rest"]
            more = None
            words = [(word["name"], self.kind(word["kind"])) for word in call["words"]]
            if rest == "Names":
                more = ("NAME", "Text")
            elif rest == "Attributes":
                # one word alone is a name
                words, more = [], ("NAME|ATTRIBUTE", "Attribute")
            words = [("DATA" if kind == "Data" else name, kind) for name, kind in words]
            options = [self.option(one) for one in call["options"]]
            yield call["name"], call["help"], words, more, options

    def form_rows(self):
        for line, says in self.forms:
            name, *parts = line.split()
            words, options, more = [], [], None
            for part in parts:
                bare = part.strip("[]")
                if "=" in bare:
                    option, value = bare.split("=")
                    options.append((option, self.form_kind(option, value), part[0] != "["))
                elif not part.startswith("["):
                    words.append(("DATA" if bare == "HEX" else bare, self.form_kind(bare, bare)))
                else:
                    more = ("ID", "Id")
            yield name, says.strip(), words, more, options


def row_of(call, column):
    """The lines of a row of src/table.rs."""
    name, says, words, more, options = call
    some = "None" if more is None else f"Some(&Word {{ name: {text(more[0])}, kind: Kind::{more[1]} }})"
    return [
        "    Call {",
        member("name", name),
        member("operation", column["asks"]),
        member("group", column["group"]),
        member("help", says),
        *members("words", [f"Word {{ name: {text(word)}, kind: Kind::{kind} }}" for word, kind in words]),
        f"        more: {some},",
        *members("options", [f"{'needed' if needed else 'given'}({text(option)}, Kind::{kind})"
                             for option, kind, needed in options]),
        member("gives", column.get("gives", "")),
        f"        is_secret: {str(column.get('secret', False)).lower()},",
        f"        says_valid: {str(column.get('valid', False)).lower()},",
        member("example", column["example"]),
        "    },",
    ]


def written(table, columns):
    """The texts of the two files."""
    rows = {row[0]: row for row in (*table.typed_rows(), *table.form_rows())}
    if set(rows) != set(columns):
        sys.exit(f"calls.toml and the program differ in {', '.join(sorted(set(rows) ^ set(columns)))}")
    body = [f"pub static CALLS: [Call; {len(rows)}] = ["]
    for name, column in sorted(columns.items(), key=lambda one: GROUPS.index(one[1]["group"])):
        body += row_of(rows[name], column)
    body += ["];", "", f"pub static ATTRIBUTES: [Word; {len(table.attributes)}] = ["]
    body += [f"    Word {{ name: {text(name)}, kind: Kind::{kind} }}," for name, kind, _ in table.attributes]
    head = "// Written by generate.py from what kmip_call prints, calls.toml and enumerations.toml."
    uses = ["use crate::row::{given, needed, Call, Kind, Word};", "use crate::values::*;", ""]
    return {
        "table.rs": "\n".join([head, *uses, *body, "];", ""]),
        "values.rs": "\n".join([head, "use crate::row::{value, Value};", "", *table.names.written(), ""]),
    }


def main():
    check = sys.argv[1:] == ["--check"]
    if sys.argv[1:] and not check:
        sys.exit(__doc__.strip())
    with open(HERE / "calls.toml", "rb") as file:
        columns = tomllib.load(file)
    made = written(Table(sys.stdin.read().splitlines()), columns)
    for name, lines in made.items():
        target = HERE / "src" / name
        if not check:
            target.write_text(lines, encoding="utf-8")
        elif not target.exists() or target.read_text(encoding="utf-8") != lines:
            sys.exit(f"clients/command/src/{name} is not as clients/command/generate.py writes it")


main()
