"""The enumerations and masks of tables/enumerations.toml, read and checked."""

from dataclasses import dataclass, field


@dataclass
class Value:
    number: int
    text: str  # OASIS's text
    variant: str  # in Rust, by kmip-protocol's name; empty where there is none
    says: str


@dataclass
class Enumeration:
    name: str
    tag: int
    list: str
    doc: str
    crate: str = ""  # empty where it is no type in Rust
    chooses: bool = False
    mask: bool = False
    values: list = field(default_factory=list)

    @property
    def typed(self):
        """The values that have a variant in Rust."""
        return [value for value in self.values if value.variant]


def read_value(enumeration, number, line):
    """One line of a table, a text or a text, a variant and what the value says."""
    text, variant, says = [*([line] if isinstance(line, str) else line), "", ""][:3]
    if len(number) != 8 or number != f"{int(number, 16):08X}":
        raise SystemExit(f"tables/enumerations.toml: {enumeration}: {number} is not eight digits of hex")
    return Value(int(number, 16), text, variant, says)


def check(enumeration):
    """The values stand in the order of their numbers, no name twice, and each bit of a mask is one."""
    where = f"tables/enumerations.toml: {enumeration.name}"
    numbers = [value.number for value in enumeration.values]
    if numbers != sorted(numbers):
        raise SystemExit(f"{where}: the values do not stand in the order of their numbers")
    for names in ([v.text for v in enumeration.values], [v.variant for v in enumeration.typed]):
        if len(set(names)) != len(names):
            raise SystemExit(f"{where}: a name stands twice")
    if enumeration.mask and any(number.bit_count() != 1 for number in numbers):
        raise SystemExit(f"{where}: a value of a mask is not one bit")
    if bool(enumeration.typed) != bool(enumeration.crate):
        raise SystemExit(f"{where}: variants and `crate` stand together, or neither does")


def read_enumerations(table, tags):
    """The enumerations, the crates' documentation, and the tag of each attribute's value."""
    by_name = {name: number for number, name in tags}

    def tag_of(name):
        if name not in by_name:
            raise SystemExit(f"tables/enumerations.toml: tags.toml has no {name}")
        return by_name[name]

    found = []
    for name, rows in table.items():
        if not name[0].isupper():
            continue
        rows = dict(rows, tag=tag_of(rows["tag"]))
        lines = rows.pop("values")
        read = Enumeration(name, **rows)
        read.values = [read_value(name, number, line) for number, line in lines.items()]
        check(read)
        found.append(read)
    return {
        "enumerations": found,
        "crates": table["crates"],
        "attributes": {name: tag_of(tag) for name, tag in table["attributes"].items()},
    }
