"""kmip_plain: the names of tags as plain JSON has them."""

import re

from spelling import spelled
from tags import grouped

NAMES_SOURCE = """\
//! The names of the tags in snake case, in tag order from FIRST.

pub(crate) const FIRST: u32 = {first};

pub(crate) const NAMES: [&str; {count}] = [
{names}
];
"""


def snake(word):
    """UniqueIdentifier to unique_identifier, MACData to mac_data, X_509CertificateIdentifier to x_509_certificate_identifier."""
    parted = re.sub(r"(?<=[a-z0-9])(?=[A-Z])|(?<=[A-Z])(?=[A-Z][a-z])", "_", word)
    return parted.lower()


def files(tables):
    tags = tables["tags"]
    names = [snake(spelled(name)) for _, name in tags]
    if len(set(names)) != len(names):
        raise SystemExit("tables/tags.toml: two tags would have one name in plain JSON")
    yield (
        "crates/kmip_plain/src/table.rt",
        NAMES_SOURCE.format(
            first=grouped(tags[0][0]),
            count=len(tags),
            names="\n".join(f'    "{name}",' for name in names),
        ),
    )
