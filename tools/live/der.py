"""Items of DER (X.690): where each begins and ends, and how it is written."""


def ends_of(der, at=0):
    """Where the contents of the item that is there begin, and where they end."""
    long = max(0, der[at + 1] - 0x80)
    begin = at + 2 + long
    return begin, begin + (int.from_bytes(der[at + 2:begin], 'big') if long else der[at + 1])


def contents_in(der):
    """The contents of each item of a sequence."""
    at, end = ends_of(der)
    made = []
    while at < end:
        begin, at = ends_of(der, at)
        made.append(der[begin:at])
    return made


def item(tag, contents):
    length = len(contents).to_bytes(2, 'big').lstrip(b'\0')
    count = bytes([0x80 + len(length)]) if len(contents) > 0x7F else b''
    return bytes([tag]) + count + length + contents
