"""kmip_encodings: the names of tags and of enumerations' numbers, as JSON and XML have them."""

from spelling import spelled
from tags import constant, grouped

WORDS_SOURCE = """\
//! The names of the tags as one word each, in tag order from FIRST.

pub(crate) const FIRST: u32 = {first};

pub(crate) const WORDS: [&str; {count}] = [
{words}
];
"""

LINES_SOURCE = """\
//! The numbers of enumerations and their names: one line for each, in three lists. Names by OASIS's
//! rule come first, and then those that kmip-protocol has for some of the same numbers.

/// How many lines there are.
pub(crate) const LINES: usize = {count};

/// The tag that the enumeration of each line stands under.
pub(crate) const TAGS: [u32; LINES] = [
{tags}
];

pub(crate) const NUMBERS: [u32; LINES] = [
{numbers}
];

pub(crate) const NAMES: [&str; LINES] = [
{names}
];
"""

LINES_SPEC = """\
-- The names of the numbers of enumerations: each with the tag that the enumeration stands under, and
-- the number (KMIP 1.2, 9.1.3.2).
use Rattle.std.specs.Prelude.{{ℕ, List, [], ◌∷◌, codes}}

abbrev pub Line : Type 0
Line = ℕ × (ℕ × List ℕ)

abbrev pub line_count : ℕ
line_count = {count}

-- by OASIS's rule of names, as it is written; and then kmip-protocol's names for some of the same
-- numbers, which are read too
unfoldable pub lines : List Line
lines =
{lines}
    []
"""

ATTRIBUTES_SOURCE = """\
//! The tags under which the values of attributes stand, by the attributes' names.
ghost use Rattle.std.specs.Prelude.{{◌≡◌}};
ghost use Rattle.kmip_encodings.specs.Attributes.{{attribute_tag}};

use kmip_tags::tags;
use kmip_wire::Tag;

/// The tag of the enumeration of the attribute's values; Attribute Value where it has none.
pub fn attribute_tag(name: &str) -> Tag
    ensures {{ result ≡ attribute_tag name.now }}
{{
    match name {{
{arms}
        _ => Tag::of(tags::ATTRIBUTE_VALUE),
    }}
}}
"""

ATTRIBUTES_SPEC = """\
-- The tags under which the values of attributes stand, by the attributes' names (KMIP 1.2, 3).
use Rattle.std.specs.Prelude.{{ℕ, List, codes, if◌then◌else◌, bytes_eq}}
use Rattle.kmip_tags.specs.Tags as tags

-- the tag of the enumeration of the attribute's values; Attribute Value where it has none
abbrev pub attribute_tag : List ℕ → ℕ
attribute_tag name =
    {tests}
    else tags.ATTRIBUTE_VALUE
"""

MASKS_SOURCE = """\
//! The bits of masks, by the tag that a mask stands under and their names: those by OASIS's rule, and
//! kmip-protocol's where they differ.
ghost use Rattle.std.specs.Prelude.{{◌≡◌, map}};
{imports}

use kmip_tags::tags;
use kmip_wire::Tag;

{functions}

/// Whether an Integer under the tag is a mask.
pub(crate) fn is_mask(tag: Tag) -> bool
    ensures {{ result ≡ is_mask tag }}
{{
    match tag.number() {{
{masks}
        _ => false,
    }}
}}

/// The bits that have names in the mask under the tag, the lowest first, with their names by OASIS's
/// rule; none where the tag is none of a mask.
pub(crate) fn mask_bits(tag: Tag) -> &'static [(u32, &'static str)]
    ensures {{ map (λ bit. (bit.0, bit.1.now)) result.now ≡ mask_bits tag }}
{{
    match tag.number() {{
{lists}
        _ => &[],
    }}
}}

/// The bit with this name in the mask under the tag; `None` where the tag is none of a mask, or there
/// is no such bit.
pub fn mask_bit(tag: Tag, name: &str) -> Option<u32>
    ensures {{ result ≡ mask_bit tag name.now }}
{{
    match tag.number() {{
{arms}
        _ => None,
    }}
}}
"""

MASK_FUNCTION = """\
fn {function}(name: &str) -> Option<u32>
    ensures {{ result ≡ {function} name.now }}
{{
    match name {{
{arms}
        _ => {other},
    }}
}}
"""

MASK_LIST = """\
pub(crate) const {constant}: [(u32, &str); {count}] = [
{rows}
];

static {constant}_TABLE: [(u32, &str); {count}] = {constant};

fn {function}() -> &'static [(u32, &'static str)]
    ensures {{ map (λ bit. (bit.0, bit.1.now)) result.now ≡ {function} }}
{{
    &{constant}_TABLE
}}
"""

MASKS_SPEC = """\
-- The bits of masks, by the tag that a mask stands under and their names (KMIP 1.2, 9.1.3.3): those by
-- OASIS's rule, and kmip-protocol's where they differ.
use Rattle.std.specs.Prelude.{{ℕ, ◌==◌, Bool, true, false, List, [], ◌∷◌, codes, Option, Some, None, if◌then◌else◌, bytes_eq}}
use Rattle.kmip_tags.specs.Tags as tags

-- a bit with its name by OASIS's rule
abbrev pub Bit : Type 0
Bit = ℕ × List ℕ

{lists}

-- whether an Integer under the tag is a mask
abbrev pub is_mask : ℕ → Bool
is_mask tag =
    {mask_tests}
    else false

-- the bits that have names, the lowest first; none where the tag is none of a mask
abbrev pub mask_bits : ℕ → List Bit
mask_bits tag =
    {list_tests}
    else []

{functions}

abbrev pub mask_bit : ℕ → List ℕ → Option ℕ
mask_bit tag name =
    {tests}
    else None
"""

# How many names one function of a mask has: a chain of more takes long to prove.
CHAIN = 8

# Those of messages stand before those of keys, since they are looked for more often.
ORDER = ["kmip_enums", "kmip_codes", ""]


def enumeration_lines(tables):
    """The tag, the number and the name of each line."""
    in_order = sorted(tables["enumerations"], key=lambda table: ORDER.index(table.crate))
    by_rule, others = [], []
    for table in (table for table in in_order if not table.mask):
        for value in table.values:
            name = spelled(value.text)
            by_rule.append((table.tag, value.number, name))
            if value.variant and value.variant != name:
                others.append((table.tag, value.number, value.variant))
    lines = by_rule + others
    if len({(tag, name) for tag, _, name in lines}) != len(lines):
        raise SystemExit("tables/enumerations.toml: one name would stand for two numbers of an enumeration")
    return lines


def mask_bits(table):
    """The names of a mask with their bits."""
    bits = [(spelled(value.text), value.number) for value in table.values]
    known = {name for name, _ in bits}
    return bits + [(v.variant, v.number) for v in table.values if v.variant and v.variant not in known]


def mask_chains(table, names):
    """The functions of a mask, the last of which is asked first: each asks the one before it."""
    bits = mask_bits(table)
    stem = constant(names[table.tag]).lower().removesuffix("_mask")
    pieces = [bits[at : at + CHAIN] for at in range(0, len(bits), CHAIN)]
    count = len(pieces)
    titles = [f"{stem}_bit" if at == count - 1 else f"{stem}_bit_{at + 1}" for at in range(count)]
    return list(zip(titles, pieces, [None, *titles]))


def mask_list(table, names):
    """The list of a mask's bits with their names by the rule: its function, in code and in specs/."""
    function = constant(names[table.tag]).lower().removesuffix("_mask") + "_bits"
    bits = [(spelled(value.text), value.number) for value in table.values]
    source = MASK_LIST.format(
        constant=function.upper(),
        count=len(bits),
        rows="\n".join(f'    (0x{bit:X}, "{name}"),' for name, bit in bits),
        function=function,
    )
    rows = "\n".join(f'    (0x{bit:X}, codes "{name}") ∷' for name, bit in bits)
    return function, source, f"unfoldable pub {function} : List Bit\n{function} =\n{rows}\n    []\n"


def mask_files(tables, crate):
    names = dict(tables["tags"])
    sources, specs, arms, tests, imports = [], [], [], [], []
    spec_lists, lists, list_tests, masks, mask_tests = [], [], [], [], []
    for table in (table for table in tables["enumerations"] if table.mask):
        function, source, spec = mask_list(table, names)
        imports.append(function)
        sources.append(source)
        spec_lists.append(spec)
        lists.append(f"        tags::{constant(names[table.tag])} => {function}(),")
        list_tests.append(f"if tag == tags.{constant(names[table.tag])} then {function}")
        masks.append(f"        tags::{constant(names[table.tag])} => true,")
        mask_tests.append(f"if tag == tags.{constant(names[table.tag])} then true")
        chains = mask_chains(table, names)
        for title, bits, before in chains:
            imports.append(title)
            sources.append(
                MASK_FUNCTION.format(
                    function=title,
                    arms="\n".join(f'        "{name}" => Some(0x{bit:X}),' for name, bit in bits),
                    other=f"{before}(name)" if before else "None",
                )
            )
            chain = "\n    else ".join(
                f'if bytes_eq name (codes "{name}") then Some 0x{bit:X}' for name, bit in bits
            )
            specs.append(
                f"abbrev pub {title} : List ℕ → Option ℕ\n{title} name =\n    {chain}\n"
                f"    else {f'{before} name' if before else 'None'}\n"
            )
        tag = constant(names[table.tag])
        arms.append(f"        tags::{tag} => {chains[-1][0]}(name),")
        tests.append(f"if tag == tags.{tag} then {chains[-1][0]} name")
    yield (
        f"{crate}/src/masks.rt",
        MASKS_SOURCE.format(
            imports="\n".join(
                f"ghost use Rattle.kmip_encodings.specs.Masks.{{{name}}};" for name in [*imports, "is_mask", "mask_bits", "mask_bit"]
            ),
            lists="\n".join(lists),
            masks="\n".join(masks),
            functions="\n".join(sources).rstrip("\n"),
            arms="\n".join(arms),
        ),
    )
    yield (
        f"{crate}/specs/Masks.antt",
        MASKS_SPEC.format(
            lists="\n".join(spec_lists).rstrip("\n"),
            list_tests="\n    else ".join(list_tests),
            mask_tests="\n    else ".join(mask_tests),
            functions="\n".join(specs).rstrip("\n"),
            tests="\n    else ".join(tests),
        ),
    )


def files(tables):
    yield from mask_files(tables, "crates/kmip_encodings")
    crate = "crates/kmip_encodings"
    tags = tables["tags"]
    yield (
        f"{crate}/src/table.rt",
        WORDS_SOURCE.format(
            first=grouped(tags[0][0]),
            count=len(tags),
            words="\n".join(f'    "{spelled(name)}",' for _, name in tags),
        ),
    )
    lines = enumeration_lines(tables)
    yield (
        f"{crate}/src/lines.rt",
        LINES_SOURCE.format(
            count=len(lines),
            tags="\n".join(f"    0x{tag:06X}," for tag, _, _ in lines),
            numbers="\n".join(f"    0x{number:X}," for _, number, _ in lines),
            names="\n".join(f'    "{name}",' for _, _, name in lines),
        ),
    )
    yield (
        f"{crate}/specs/Lines.antt",
        LINES_SPEC.format(
            count=len(lines),
            lines="\n".join(
                f'    (0x{tag:06X}, (0x{number:X}, codes "{name}")) ∷' for tag, number, name in lines
            ),
        ),
    )
    names = dict(tags)
    attributes = {name: constant(names[tag]) for name, tag in tables["attributes"].items()}
    yield (
        f"{crate}/src/attributes.rt",
        ATTRIBUTES_SOURCE.format(
            arms="\n".join(f'        "{name}" => Tag::of(tags::{tag}),' for name, tag in attributes.items())
        ),
    )
    yield (
        f"{crate}/specs/Attributes.antt",
        ATTRIBUTES_SPEC.format(
            tests="\n    else ".join(
                f'if bytes_eq name (codes "{name}") then tags.{tag}' for name, tag in attributes.items()
            )
        ),
    )
