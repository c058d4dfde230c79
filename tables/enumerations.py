"""kmip_enums and kmip_codes: one .rt and one .antt file for each enumeration that is a type."""

from layout import doc, equation, ghost_uses, plural, signature, snake

SOURCE = """\
//! {list}

ghost use Rattle.std.specs.Prelude.{{◌≡◌, Some, refl}};
{ghosts}

use kmip_shape::Enumeration;
{outer_uses}\
use std::fmt::{{self, Display, Formatter, Write}};

{doc}
#[derive(Clone, Copy, PartialEq, Eq, Drop)]
{allow}\
pub enum {name} {{
{variants}
}}

impl Enumeration for {name} {{
    ghost line = {{ {snake}_line }};

    ghost variants = {{ {snake}_variants }};

    fn number(self) -> u32 {{
        self as u32
    }}

    fn from_number(number: u32) -> Option<{name}> {{
        match number {{
{from_number}
            _ => None,
        }}
    }}

    fn name(self) -> &'static str {{
        match self {{
{names}
        }}
    }}

    ghost found = {{ {snake}_found }};

    ghost distinct = {{ refl }};
}}

impl Display for {name} {{
    ghost output = {{ λ x. Some ({snake}_line x).name }};

    fn fmt<W: Write>(&self, f: &mut Formatter<W>) -> fmt::Result {{
        f.write_str(self.name())
    }}
}}
{chooses}"""

CHOOSES = """
impl Chooses for {name} {{
    fn outer(&self) -> Outer<'_> {{
        Outer {{
            number: Some(self.number()),
            name: None,
        }}
    }}
}}
"""

OUTER_USES = "use kmip_shape::read::Outer;\nuse kmip_shape::row_readers::Chooses;\n"

SPEC = """\
-- {list}: KMIP 1.2, 9.1.3.2.
use Rattle.std.specs.Prelude.{{List, [], ◌∷◌, map, codes}}
use Rattle.std.proofs.Common.{{rules}}
use Rattle.kmip_shape.specs.Val.{{Val}}
use Rattle.kmip_shape.specs.Shape.{{Entry}}
use Rattle.kmip_shape.specs.Same.{{IsFaithful}}
use Rattle.kmip_shape.specs.Enumerations.{{entry, enumeration_val, AreFound, same_variant}}
use Rattle.{crate}.specs.declared.{snake}.{name}.{{{name}}}
use Rattle.{crate}.specs.declared.{snake}.{name}.TheVariants.{{{imports}}}

-- the number and the name of each
abbrev pub {snake}_line : {name} → Entry
{lines}

-- in the order of their numbers
abbrev pub {snake}_variants : List {name}
{variants}

abbrev pub {many} : List Entry
{entries}

abbrev pub {snake}_val : {name} → Val
{snake}_val = enumeration_val {snake}_line

{found}
{snake}_found x = search rules

pub {snake}_same : IsFaithful {snake}_val
{same}
"""

MASK_SOURCE = """\
//! {list}

ghost use Rattle.std.specs.Prelude.{{⊤, ◌≡◌}};
ghost use Rattle.kmip_codes.specs.UsageMask.{{usages, usage_bits}};

use bitflags::{{Flag, Flags, bitflag_items}};

{doc}
#[derive(Clone, Copy, PartialEq, Eq, Drop)]
pub struct {name}(u32);

bitflag_items! {{
    impl {name}: u32 {{
{constants}
    }}
}}

impl Flags for {name} {{
    type Bits = u32;

    ghost exact = {{ ⊤ }};

    ghost table = {{ usages }};

    ghost set_of = {{ usage_bits }};

    fn flags<'a>() -> &'a [Flag<{name}>] {{
        {name}::FLAGS
    }}

    fn bits(&self) -> u32 {{
        self.0
    }}

    fn from_bits_retain(bits: u32) -> {name} {{
        {name}(bits)
    }}
}}
"""

MASK_SPEC = """\
-- {list}, each with its bit: KMIP 1.2, 9.1.3.3.1.
use Rattle.std.specs.Prelude.{{ℕ, List, [], ◌∷◌, codes}}
use Rattle.kmip_codes.specs.declared.usage_mask.{name}.{{{name}}}

abbrev pub usages : List (List ℕ × ℕ)
usages =
    {rows}

-- the bits of a set
abbrev pub usage_bits : {name} → ℕ
usage_bits mask = mask.0
"""

ROOT_SOURCE = """\
{doc}
#![tactic(auto)]

{modules}

{uses}
"""


def as_source(number, in_hex):
    return f"0x{number:X}" if in_hex else str(number)


def proof_name(name, variant):
    """In a spec `None` is that of Option, so a variant of that name has another there."""
    return "No" + name.removesuffix("Method") if variant == "None" else variant


def module(table):
    """The module that declares the type."""
    return "usage_mask" if table.mask else snake(table.name)


def source(table):
    name, short = table.name, snake(table.name)
    in_hex = any(value.number > 0xFF for value in table.typed)
    variants, from_number, names = [], [], []
    for value in table.typed:
        number = as_source(value.number, in_hex)
        if value.says:
            variants.append(doc(value.says, "    "))
        variants.append(f"    {value.variant} = {number},")
        from_number.append(f"            {number} => Some({name}::{value.variant}),")
        names.append(f'            {name}::{value.variant} => "{value.variant}",')
    in_specs = f"Rattle.{table.crate}.specs.{plural(name)}"
    return SOURCE.format(
        name=name,
        snake=short,
        list=table.list,
        doc=doc(table.doc),
        ghosts=ghost_uses(in_specs, [f"{short}_{part}" for part in ("line", "variants", "found")]),
        outer_uses=OUTER_USES if table.chooses else "",
        allow="#[allow(non_camel_case_types)]\n" if any("_" in v.variant for v in table.typed) else "",
        variants="\n".join(variants),
        from_number="\n".join(from_number),
        names="\n".join(names),
        chooses=CHOOSES.format(name=name) if table.chooses else "",
    )


def spec(table):
    name, short, many = table.name, snake(table.name), plural(snake(table.name))
    known = {value.variant: proof_name(name, value.variant) for value in table.typed}
    lines = [
        equation(
            f"{short}_line {known[value.variant]}", f'entry {value.number:#x} (codes "{value.variant}")'
        )
        for value in table.typed
    ]
    return SPEC.format(
        crate=table.crate,
        name=name,
        snake=short,
        many=many,
        list=table.list.removesuffix("."),
        imports=", ".join(v if known[v] == v else f"{v} as {known[v]}" for v in known),
        lines="\n".join(lines),
        variants=equation(f"{short}_variants", " ∷ ".join([*known.values(), "[]"])),
        entries=equation(many, f"map {short}_line {short}_variants"),
        found=signature(f"pub {short}_found", f"AreFound {short}_line {short}_variants"),
        same=equation(f"{short}_same", f"same_variant {short}_line {short}_variants {short}_found"),
    )


def mask_source(table):
    return MASK_SOURCE.format(
        name=table.name,
        list=table.list,
        doc=doc(table.doc),
        constants="\n".join(f"        const {v.variant} = {v.number:#x};" for v in table.typed),
    )


def mask_spec(table):
    rows = [f'(codes "{value.variant}", {value.number:#x})' for value in table.typed]
    return MASK_SPEC.format(
        name=table.name, list=table.list.removesuffix("."), rows="\n    ∷ ".join([*rows, "[]"])
    )


def root_source(text, tables):
    in_order = sorted((module(table), table.name) for table in tables)
    uses = [f"pub use {where}::{name};" for where, name in in_order]
    return ROOT_SOURCE.format(
        doc=doc(text, mark="//!"),
        modules="\n".join(f"mod {where};" for where, _ in in_order),
        uses="\n".join([*uses, "pub use kmip_shape::Enumeration;"]),
    )


def files(tables):
    for crate, text in tables["crates"].items():
        of_crate = [table for table in tables["enumerations"] if table.crate == crate]
        specs = []
        for table in of_crate:
            in_specs = "UsageMask" if table.mask else plural(table.name)
            specs.append(f"pub mod {in_specs}\n")
            made = (mask_source(table), mask_spec(table)) if table.mask else (source(table), spec(table))
            yield f"crates/{crate}/src/{module(table)}.rt", made[0]
            yield f"crates/{crate}/specs/{in_specs}.antt", made[1]
        yield f"crates/{crate}/src/lib.rt", root_source(text, of_crate)
        yield f"crates/{crate}/specs/Lib.antt", "".join(sorted(specs))
