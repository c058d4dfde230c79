"""Messages of KMIP as bytes: written item by item, and read from a connection."""
import struct

SUCCESS, FAILED, PENDING, UNDONE = 0, 1, 2, 3


# TTLV: tag, type, length, value, padded to 8 bytes.

def item(tag, kind, body):
    pad = b'' if kind == 1 else b'\0' * (-len(body) % 8)
    return struct.pack('>I', tag)[1:] + bytes([kind]) + struct.pack('>I', len(body)) + body + pad


def structure(tag, *bodies):
    return item(tag, 1, b''.join(bodies))


def integer(tag, number):
    return item(tag, 2, struct.pack('>i', number))


def enumeration(tag, number):
    return item(tag, 5, struct.pack('>I', number))


def text(tag, value):
    return item(tag, 7, value.encode() if isinstance(value, str) else value)


def octets(tag, value):
    return item(tag, 8, value)


def date(tag, seconds):
    return item(tag, 9, struct.pack('>q', seconds))


def identifier(value):
    return text(0x420094, value)


def header(major=1, minor=2, count=1, more=b''):
    return structure(0x42007A, structure(0x420069, integer(0x42006A, major), integer(0x42006B, minor)),
                     date(0x420092, 1700000000), more, integer(0x42000D, count))


def batch_item(operation, payload, status=SUCCESS, reason=None, message=None):
    body = b'' if operation is None else enumeration(0x42005C, operation)
    body += enumeration(0x42007F, status)
    body += b'' if reason is None else enumeration(0x42007E, reason)
    body += b'' if message is None else text(0x42007D, message)
    return structure(0x42000F, body, b'' if payload is None else structure(0x42007C, *payload))


def response(operation, payload, head=None, **how):
    return structure(0x42007B, head or header(), batch_item(operation, payload, **how))


def nested(levels):
    made = b''
    for _ in range(levels):
        made = structure(0x420008, made)
    return made


def item_at(data, at=0):
    """The tag, the type and the value of the item that begins there, and where the next one begins."""
    end = at + 8 + int.from_bytes(data[at + 4:at + 8], 'big')
    return int.from_bytes(data[at:at + 3], 'big'), data[at + 3], data[at + 8:end], end + (at - end) % 8


def typed_items_in(contents):
    """The tag, the type and the value of each item of these contents of a structure."""
    made, at = [], 0
    while at + 8 <= len(contents):
        tag, kind, value, at = item_at(contents, at)
        made.append((tag, kind, value))
    return made


def items_in(contents):
    """The tag and the value of each item of these contents of a structure."""
    return [(tag, value) for tag, _, value in typed_items_in(contents)]


def value_of(request, tag, kind):
    """The first value with this tag (6 hex digits) and type in a request, or None."""
    at = request.find(bytes.fromhex(tag) + bytes([kind]))
    return None if at < 0 else item_at(request, at)[2]


def operation_of(request):
    return int.from_bytes(value_of(request, '42005C', 5), 'big')


def items_of(request):
    """The batch items of a request, each as its contents."""
    at = request.find(bytes.fromhex('42000F01'))
    return [] if at < 0 else [value for _, value in items_in(request[at:])]


def id_of(request):
    """The Unique Batch Item ID of a request of one batch item, or None."""
    items = items_of(request)
    return dict(items_in(items[0])).get(0x420093) if len(items) == 1 else None


def identified(message, name):
    """A response with this Unique Batch Item ID in each batch item, behind its operation (KMIP 1.0, 6.4 and 7.2). Where the
    name is None, or it is no response, it is as it was."""
    if name is None or message[:4] != bytes.fromhex('42007B01') or len(message) < 8 or item_at(message)[3] != len(message):
        return message
    made = []
    for tag, kind, value in typed_items_in(message[8:]):
        if (tag, kind) == (0x42000F, 1):
            front = 16 if value[:3] == bytes.fromhex('42005C') else 0
            value = value[:front] + octets(0x420093, name) + value[front:]
        made.append(item(tag, kind, value))
    return structure(0x42007B, *made)


def message_of(wire):
    """One message that came, or no bytes at the end."""
    got, wanted = bytearray(), 8
    while len(got) < wanted:
        piece = wire.recv(min(wanted - len(got), 1 << 16))
        if not piece:
            return b''
        got += piece
        if len(got) == 8:
            wanted = item_at(got)[3]
    return bytes(got)
