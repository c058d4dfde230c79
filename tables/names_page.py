"""docs/NAMES.md: the values of each option of the calls, and every name that JSON and XML have."""

from spelling import spelled

HEAD = """\
# Names

## Values of options

An option of a typed call takes names of an enumeration below, in every client; where a value has two
names, the one in brackets. `kmip_call --help` lists them all. Other calls take either name.

| option, or word | enumeration |
|---|---|
{options}

## Enumerations in JSON and XML

A number is written as its name; one without a name as `0x` and eight digits, a form that is read for
every number. A name in brackets is that of kmip-protocol: read, and never written. The numbers here
are in hex, and grow by 1 from name to name. The enumerations are those of KMIP 1.2, 9.1.3.2, spelled
by the rule of OASIS's encodings.

| enumeration | values |
|---|---|
"""

# Each option or word with the enumeration of its values, in the order of docs/CALL.md.
OPTIONS = [
    ("`create ALGORITHM`, `algorithm=`", "CryptographicAlgorithm"),
    ("`format=`", "KeyFormatType"),
    ("`usage=`, `private-usage=`, `public-usage=`", "CryptographicUsageMask"),
    ("`type=`", "ObjectType"),
    ("`state=`", "State"),
    ("`hash=`", "HashingAlgorithm"),
    ("`padding=`", "PaddingMethod"),
    ("`reason=`", "RevocationReasonCode"),
]


def option_row(option, table, tags):
    """An option: its names, or the enumeration whose names they are, all of them or the first ones."""
    names = [value.variant for value in table.typed]
    if table.mask:
        shown = f"{', '.join(names)}; `,` stands between two"
    elif len(names) == len(table.values):
        shown = tags[table.tag]
    else:
        shown = f"{tags[table.tag]}, {names[0]} to {names[-1]}"
    return f"| {option} | {shown} |"


def named(value):
    """A value: its name, and the other one that is read."""
    name = spelled(value.text)
    return name if value.variant in ("", name) else f"{name} ({value.variant})"


def enumeration_row(table, tag):
    """An enumeration: a number stands before each eighth name, and where one is left out."""
    shown = []
    for at, value in enumerate(table.values):
        follows = at % 8 and value.number == table.values[at - 1].number + 1
        shown.append(named(value) if follows else f"{value.number:X} {named(value)}")
    return f"| {tag} | {', '.join(shown)} |"


def files(tables):
    tags = dict(tables["tags"])
    by_name = {table.name: table for table in tables["enumerations"]}
    options = "\n".join(option_row(option, by_name[name], tags) for option, name in OPTIONS)
    rows = [enumeration_row(table, tags[table.tag]) for table in tables["enumerations"] if not table.mask]
    yield "docs/NAMES.md", HEAD.format(options=options) + "\n".join(rows) + "\n"
