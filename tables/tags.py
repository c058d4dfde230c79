"""kmip_tags: the table of the tags' names, and the tags as constants, each in .rt and .antt."""

import re

TABLE_SOURCE = """\
//! The names of the tags, in tag order from FIRST. Two names have two spaces in a row.

pub(crate) const FIRST: u32 = {first};

pub(crate) const NAMES: [&str; {count}] = [
{names}
];
"""

TABLE_SPEC = """\
-- The names of the tags, in tag order from the first (KMIP 1.0, 9.1.3.1, and the tags that later
-- versions add).
use Rattle.std.specs.Prelude.{{ℕ, List, [], ◌∷◌, codes}}

abbrev pub first_tag : ℕ
first_tag = {first:#x}

unfoldable pub names : List (List ℕ)
names =
{names}
    []
"""

TAGS_SOURCE = """\
//! The tags of KMIP by their names: KMIP 1.0, 9.1.3.1, and the tables of later versions.

{constants}
"""

TAGS_SPEC = """\
-- The tags of KMIP by their names (KMIP 1.0, 9.1.3.1), up to the last that a definition uses.
use Rattle.std.specs.Prelude.{{ℕ}}

{constants}
"""

# The last tag that a definition uses: the specs have a constant for each up to it.
LAST_USED = "Invocation Field Length"


def read_tags(table):
    """The numbers with their names, in order and without a gap."""
    read = [(int(number, 16), name) for number, name in table["names"].items()]
    if [number for number, _ in read] != list(range(read[0][0], read[0][0] + len(read))):
        raise SystemExit("tables/tags.toml: the tags do not stand in order without a gap")
    return read


def constant(name):
    """IV/Counter/Nonce to IV_COUNTER_NONCE."""
    return re.sub(r"[^A-Z0-9]+", "_", name.upper())


def grouped(number):
    """0x42_0001."""
    return f"0x{number >> 16:02X}_{number & 0xFFFF:04X}"


def source_constant(number, name):
    text = re.sub(" +", " ", name)
    return f"/// {text}.\npub const {constant(name)}: u32 = 0x{number:06X};"


def spec_constant(number, name):
    return f"abbrev pub {constant(name)} : ℕ\n{constant(name)} = 0x{number:06X}"


def files(tables):
    tags = tables["tags"]
    first = tags[0][0]
    last_used = next(number for number, name in tags if name == LAST_USED)
    yield (
        "crates/kmip_tags/src/table.rt",
        TABLE_SOURCE.format(
            first=grouped(first), count=len(tags), names="\n".join(f'    "{name}",' for _, name in tags)
        ),
    )
    yield (
        "crates/kmip_tags/specs/Table.antt",
        TABLE_SPEC.format(first=first, names="\n".join(f'    codes "{name}" ∷' for _, name in tags)),
    )
    yield (
        "crates/kmip_tags/src/tags.rt",
        TAGS_SOURCE.format(constants="\n".join(source_constant(*tag) for tag in tags)),
    )
    yield (
        "crates/kmip_tags/specs/Tags.antt",
        TAGS_SPEC.format(constants="\n\n".join(spec_constant(*tag) for tag in tags if tag[0] <= last_used)),
    )
