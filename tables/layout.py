"""How text is laid out: what `rt fmt` leaves to the writer, which is ghost lines and .antt files."""

import re

WIDTH = 100
SECTION = r"KMIP 1\.\d, [\d.]*\d( to [\d.]*\d)?"


def snake(name):
    """GetAttributeList to get_attribute_list, and RNGRetrieve to rng_retrieve."""
    return re.sub(r"(?<=[a-z0-9])(?=[A-Z])|(?<=[A-Z])(?=[A-Z][a-z])", "_", name).lower()


def plural(name):
    return name + ("es" if name.endswith("s") else "s")


def atom(text):
    """A text that is not broken."""
    return text.replace(" ", "\0")


def fill(text, indent="", first=None, width=WIDTH):
    """The words of a text in lines of at most `width`; the first line begins with `first`."""
    lines, line = [], indent if first is None else first
    for word in text.replace(" ∷", atom(" ∷")).split(" "):
        word = word.replace("\0", " ")
        if len(line) + len(word) > width and line.strip():
            lines.append(line.rstrip())
            line = indent
        line += word + " "
    return "\n".join([*lines, line.rstrip()])


def equation(left, right):
    """`left = right` in one line where it fits, else with all of the right side below."""
    line = f"{left} = {right}"
    return line if len(line) <= WIDTH else f"{left} =\n" + fill(right, "    ")


def signature(name, type_):
    return fill(f"{name} : {type_}", "    ", "")


def doc(text, indent="", mark="///"):
    """A comment: its paragraphs, each filled, with an empty comment line between them."""
    start = f"{indent}{mark} "
    text = re.sub(SECTION, lambda section: atom(section[0]), text.strip())
    parts = [fill(part, start, start) for part in text.split("\n\n")]
    return f"\n{indent}{mark}\n".join(parts)


def ghost_uses(module, names):
    """Imports of a ghost module, as many names in a line as fit."""
    lines, held = [], []
    for name in names:
        if held and len(f"ghost use {module}.{{{', '.join([*held, name])}}};") > WIDTH:
            lines.append(held)
            held = []
        held.append(name)
    return "\n".join(f"ghost use {module}.{{{', '.join(held)}}};" for held in [*lines, held])
