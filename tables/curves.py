"""kmip_der: the curves that KMIP recommends, as names in DER, each with its number and its sizes. kmip_key_files: their usual
names."""

import sys

SOURCE = """\
//! The curves that KMIP recommends.
use crate::curves::Curve;

/// The curves, in the order of their numbers.
pub(crate) const CURVES: &[Curve] = &[
{rows}
];
"""

ROW = "Curve {{ name: &[{name}], number: {number}, bits: {bits}, octets: {octets} }},"

SPEC = """\
-- The curves that KMIP 1.2 recommends (9.1.3.2.5): the name as DER has it (X.690, 8.19), the number in
-- KMIP, the bits of the field, and the bytes of the order.
use Rattle.std.specs.Prelude.{{List, [], ◌∷◌}}
use Rattle.kmip_der.specs.Curve.{{Curve, curve}}

abbrev pub curves : List Curve
curves =
{rows}
    []
"""

NAMES_SOURCE = """\
//! The usual names of the curves that KMIP recommends.
use crate::curve_names::Named;

/// The names of KMIP 1.2, of openssl and of SEC 2, in the order of their numbers.
pub(crate) const NAMES: &[Named] = &[
{rows}
];
"""

NAMES_ROW = 'Named {{ name: b"{name}", number: {number} }},'

NAMES_SPEC = """\
-- The usual names of the curves of KMIP 1.2 (9.1.3.2.5): its own, openssl's and those of SEC 2.
use Rattle.std.specs.Prelude.{{List, [], ◌∷◌, codes}}
use Rattle.kmip_key_files.specs.CurveNames.{{Named, named}}

abbrev pub names : List Named
names =
{rows}
    []
"""


def oid_bytes(oid):
    """The contents of an object identifier: 1.2.840 to 42, 134, 72."""
    first, second, *rest = map(int, oid.split("."))
    found = [40 * first + second]
    for arc in rest:
        digits = [arc % 128]
        while arc >= 128:
            arc //= 128
            digits.insert(0, 128 + arc % 128)
        found += digits
    return found


def read_curves(table, enumerations):
    """A row for each value of Recommended Curve, in the order of its numbers."""
    values = next(one for one in enumerations if one.name == "RecommendedCurve").values
    curves = table["curves"]
    if set(curves) != {value.text for value in values}:
        sys.exit("tables/curves.toml: its names are not those of RecommendedCurve")
    return [{"number": value.number, "text": value.text, **curves[value.text]} for value in values]


def files(tables):
    rows = [
        {"number": row["number"], "bits": row["bits"], "octets": row["octets"], "name": oid_bytes(row["oid"])}
        for row in tables["curves"]
    ]
    source = [ROW.format(**{**row, "name": ", ".join(map(str, row["name"]))}) for row in rows]
    spec = [
        "    curve ({} ∷ []) {} {} {} ∷".format(
            " ∷ ".join(map(str, row["name"])), row["number"], row["bits"], row["octets"]
        )
        for row in rows
    ]
    yield "crates/kmip_der/src/curve_table.rt", SOURCE.format(rows="\n".join(source))
    yield "crates/kmip_der/specs/CurveTable.antt", SPEC.format(rows="\n".join(spec))
    names = [(name, row["number"]) for row in tables["curves"] for name in [row["text"], *row["names"]]]
    if len({name for name, _ in names}) != len(names):
        sys.exit("tables/curves.toml: a name stands there twice")
    source = [NAMES_ROW.format(name=name, number=number) for name, number in names]
    spec = [f'    named (codes "{name}") {number} ∷' for name, number in names]
    yield "crates/kmip_key_files/src/curve_name_table.rt", NAMES_SOURCE.format(rows="\n".join(source))
    yield "crates/kmip_key_files/specs/CurveNameTable.antt", NAMES_SPEC.format(rows="\n".join(spec))
