"""Messages of KMIP as bytes, written item by item as the standard has them (1.0, 7 and 9.1)."""
import struct

STRUCTURE, INTEGER, _, _, ENUMERATION, BOOLEAN, TEXT, BYTES, DATE, INTERVAL = range(1, 11)


def item(tag: int, kind: int, value: bytes) -> bytes:
    pad = b'' if kind == STRUCTURE else b'\0' * (-len(value) % 8)
    return struct.pack('>II', tag << 8 | kind, len(value)) + value + pad


def structure(tag: int, *items: bytes) -> bytes:
    return item(tag, STRUCTURE, b''.join(items))


def integer(tag: int, number: int) -> bytes:
    return item(tag, INTEGER, struct.pack('>i', number))


def enumeration(tag: int, number: int) -> bytes:
    return item(tag, ENUMERATION, struct.pack('>I', number))


def text(tag: int, value: str) -> bytes:
    return item(tag, TEXT, value.encode())


def octets(tag: int, value: bytes) -> bytes:
    return item(tag, BYTES, value)


def identifier(value: str) -> bytes:
    return text(0x420094, value)


def attribute(name: str, value: bytes) -> bytes:
    """An attribute, whose value is an item with the tag Attribute Value."""
    return structure(0x420008, text(0x42000A, name), value)


def name_attribute(value: str) -> bytes:
    return attribute('Name', structure(0x42000B, text(0x420055, value), enumeration(0x420054, 1)))


def _version(minor: int) -> bytes:
    return structure(0x420069, integer(0x42006A, 1), integer(0x42006B, minor))


def _id(item_id: bytes) -> bytes:
    return octets(0x420093, item_id) if item_id else b''


def request(minor: int, operation: int, *payload: bytes, item_id: bytes = b'') -> bytes:
    """A request of this version and operation, with these items in its payload."""
    body = structure(0x42000F, enumeration(0x42005C, operation), _id(item_id),
                     structure(0x420079, *payload))
    return structure(0x420078, structure(0x420077, _version(minor), integer(0x42000D, 1)), body)


def response(operation: int, *payload: bytes, item_id: bytes = b'', status: int = 0) -> bytes:
    """The response to such a request; after a failure with what follows its status."""
    body = [enumeration(0x42005C, operation), _id(item_id), enumeration(0x42007F, status)]
    body += [structure(0x42007C, *payload)] if status == 0 else payload
    header = structure(0x42007A, _version(2), item(0x420092, DATE, struct.pack('>q', 1700000000)),
                       integer(0x42000D, 1))
    return structure(0x42007B, header, structure(0x42000F, *body))
