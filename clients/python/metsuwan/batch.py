"""Several calls in one message. Each item of a batch is that of the request of a single call, and
each item of the response is read as the response to a single call: so nothing of either is new."""
from __future__ import annotations

import json
import struct
from functools import partial
from typing import (TYPE_CHECKING, Any, Callable, Dict, Iterator, List, Mapping, Optional, Tuple,
                    TypeVar, Union)

from .calls import Option, Word, call_of
from .errors import DeserializeError, GrammarError, KmipError, NotDone, OtherObject, Undone
from .items import Item
from .library import Call, Operation

if TYPE_CHECKING:
    from .client import Client, Payload

Answer = Union[Dict[str, Any], Item, KmipError]
Self = TypeVar('Self', bound='Calls')
HEAD = 8
STRUCTURE, INTEGER, ENUMERATION, BYTES = 1, 2, 5, 8
HEADER, BATCH_COUNT, CONTINUATION, BATCH_ITEM = 0x420077, 0x42000D, 0x42000E, 0x42000F
VERSION, OPERATION, ITEM_ID, RESPONSE_HEADER = 0x420069, 0x42005C, 0x420093, 0x42007A
REQUEST, RESPONSE, RESULT_STATUS = 0x420078, 0x42007B, 0x42007F
# Of a Result Status.
FAILED, PENDING, UNDONE = (struct.pack('>I', number) for number in (1, 2, 3))
OPTIONS = {'Continue': 1, 'Stop': 2, 'Undo': 3}


def _item(tag: int, kind: int, contents: bytes) -> bytes:
    pad = b'' if kind == STRUCTURE else b'\0' * (-len(contents) % 8)
    return struct.pack('>II', tag << 8 | kind, len(contents)) + contents + pad


def _parts(structure: bytes) -> Iterator[Tuple[int, bytes, bytes]]:
    """The items of a structure that is well formed: the tag, the whole and the contents of each.

    :raises ValueError: it is not
    """
    at = 0
    while at < len(structure):
        if at + HEAD > len(structure):
            raise ValueError('an item without its head')
        head, length = struct.unpack_from('>II', structure, at)
        end = at + HEAD + (length if head & 0xFF == STRUCTURE else (length + 7) // 8 * 8)
        if end > len(structure):
            raise ValueError('an item without its end')
        yield head >> 8, structure[at:end], structure[at + HEAD:at + HEAD + length]
        at = end


def ids_of(first: bytes, count: int) -> List[bytes]:
    """So many Unique Batch Item IDs of eight bytes: the first one, which is random, so that no
    answer to another batch has them, and the numbers that follow it."""
    number = int.from_bytes(first, 'big')
    return [((number + at) % (1 << 64)).to_bytes(8, 'big') for at in range(count)]


def _with_id(item: bytes, item_id: bytes) -> bytes:
    """A batch item of a request with a Unique Batch Item ID, which stands after its operation."""
    made = b''
    for tag, whole, _ in _parts(item):
        made += whole + (_item(ITEM_ID, BYTES, item_id) if tag == OPERATION else b'')
    return _item(BATCH_ITEM, STRUCTURE, made)


def _split(message: bytes, message_tag: int,
           header_tag: int) -> Tuple[List[Tuple[int, bytes, bytes]], List[bytes]]:
    """The parts of a message's header, and its batch items.

    :raises OtherObject: it is a message of another kind, or has another header, or none, or a part
        that is no structure
    :raises ValueError: it is not well formed
    """
    (tag, _, contents), = _parts(message)
    parts = [(part, whole[3], body) for part, whole, body in _parts(contents)]
    wanted = [(header_tag, STRUCTURE), *[(BATCH_ITEM, STRUCTURE)] * (len(parts) - 1)]
    if tag != message_tag or [part[:2] for part in parts] != wanted:
        raise OtherObject('not a response message')
    (_, _, header), *items = parts
    return list(_parts(header)), [body for _, _, body in items]


def message_of(requests: List[bytes], ids: List[bytes], on_error: int) -> bytes:
    """One message of these requests with these IDs, and with the highest of their versions."""
    split = [_split(request, REQUEST, HEADER) for request in requests]
    version = max(part for header, _ in split for part in header if part[0] == VERSION)
    made = b''
    for tag, whole, _ in split[0][0]:
        if tag == BATCH_COUNT:
            made += _item(CONTINUATION, ENUMERATION, struct.pack('>I', on_error))
            whole = _item(BATCH_COUNT, INTEGER, struct.pack('>i', len(requests)))
        made += version[1] if tag == VERSION else whole
    items = [_with_id(items[0], item_id) for item_id, (_, items) in zip(ids, split)]
    return _item(REQUEST, STRUCTURE, _item(HEADER, STRUCTURE, made) + b''.join(items))


def _single(header: List[Tuple[int, bytes, bytes]], item: bytes) -> bytes:
    """The response to a single call that has this batch item."""
    one = _item(BATCH_COUNT, INTEGER, struct.pack('>i', 1))
    head = b''.join(one if tag == BATCH_COUNT else whole for tag, whole, _ in header)
    rest = b''.join(whole for tag, whole, _ in _parts(item) if tag != ITEM_ID)
    return _item(RESPONSE, STRUCTURE, _item(RESPONSE_HEADER, STRUCTURE, head) +
                 _item(BATCH_ITEM, STRUCTURE, rest))


def _ids_in(item: bytes) -> List[Optional[bytes]]:
    """The Unique Batch Item IDs of a batch item; None of one that is no bytes."""
    return [body if whole[3] == BYTES else None
            for tag, whole, body in _parts(item) if tag == ITEM_ID]


def _has_status(item: bytes, wanted: bytes) -> bool:
    """Whether a batch item says that this came of its call."""
    status = [(whole[3], body) for tag, whole, body in _parts(item) if tag == RESULT_STATUS]
    return status[:1] == [(ENUMERATION, wanted)]


def is_undone(response: bytes) -> bool:
    """Whether the response to a single call says that the server has taken back what it did."""
    return _has_status(_split(response, RESPONSE, RESPONSE_HEADER)[1][0], UNDONE)


def is_pending(response: bytes) -> bool:
    """Whether a response says that its call is pending."""
    try:
        _, items = _split(response, RESPONSE, RESPONSE_HEADER)
        return len(items) == 1 and _has_status(items[0], PENDING)
    except (ValueError, OtherObject):
        return False


def _has_count(header: List[Tuple[int, bytes, bytes]], count: int) -> bool:
    """Whether the Batch Count of a header is this."""
    wanted = _item(BATCH_COUNT, INTEGER, struct.pack('>i', count))
    return [whole for tag, whole, _ in header if tag == BATCH_COUNT] == [wanted]


def responses_of(message: bytes, ids: List[bytes], on_error: int) -> List[bytes]:
    """Of each call, by these IDs, the response, or no bytes where the server has not done it.

    :raises DeserializeError: the message is not well formed
    :raises OtherObject: it is no response, or has another Batch Count than it has items, or an item
        of it is of no call, or two are of one, or a call has none where no call before it failed
    """
    try:
        header, items = _split(message, RESPONSE, RESPONSE_HEADER)
        named = [_ids_in(item) for item in items]
        failed = [_has_status(item, FAILED) for item in items]
    except ValueError as error:
        raise DeserializeError(str(error)) from None
    if not _has_count(header, len(items)):
        raise OtherObject('the Batch Count is not that of the items of the response')
    if failed == [True] and not named[0]:
        # A failure of the whole message, as where a server takes no batches.
        return [_single(header, items[0])] * len(ids)
    places: Dict[Optional[bytes], int] = {item_id: at for at, item_id in enumerate(ids)}
    found, ended = [b''] * len(ids), len(ids)
    for item, given, has_failed in zip(items, named, failed):
        at = places.get(given[0]) if len(given) == 1 else None
        if at is None or found[at]:
            raise OtherObject('an item of the response is of no call of the batch')
        found[at] = _single(header, item)
        # Only after a call that failed a server may have ended.
        if has_failed and on_error != OPTIONS['Continue']:
            ended = min(ended, at)
    if b'' in found[:ended]:
        raise OtherObject('a call of the batch has no item in the response')
    return found


class Calls:
    """Calls that are collected, to be made in one message."""

    def __init__(self, client: 'Client', on_error: str) -> None:
        if on_error not in OPTIONS:
            raise GrammarError('on_error is Continue, Stop or Undo')
        self._client, self._on_error = client, OPTIONS[on_error]
        self._calls: List[Call] = []

    def call(self: Self, name: str, /, *words: Word, **options: Option) -> Self:
        """Adds a call of words, as ``Client.call``.

        :raises GrammarError: it is none
        """
        return self._add(call_of(name, words, options))

    def operation(self: Self, name: str, payload: 'Payload', *, version: str = '1.2') -> Self:
        """Adds a call of any operation, as ``Client.operation``.

        :raises GrammarError: it is none
        """
        if not isinstance(payload, (str, Mapping)):
            payload = Item('RequestPayload', list(payload))
        text = payload if isinstance(payload, str) else json.dumps(payload)
        try:
            return self._add(Operation(name.encode(), version.encode(), text.encode()))
        except UnicodeEncodeError:
            raise GrammarError('the operation, the version or the payload is not UTF-8') from None

    def _add(self: Self, call: Call) -> Self:
        self._client._check(call)
        self._calls.append(call)
        return self

    def _sending(self) -> Callable[[], List[Answer]]:
        """What makes the calls that were added so far."""
        if not self._calls:
            raise GrammarError('the batch has no calls')
        return partial(self._client._send, list(self._calls), self._on_error)


class Batch(Calls):
    """Calls that are made in one message, in their order.

        batch = kmip.batch(on_error='Stop')
        batch.call('activate', key).call('sign', key, data).operation('MAC', [..])
        activated, signed, mac = batch.send()

    What goes wrong with one call stands in the place of its answer, and is not raised.
    """

    def send(self) -> List[Answer]:
        """Makes the calls, and returns of each its answer, as the single call has it, or its error:
        ``NotDone`` where the server has not come to it.

        :raises ConnectionLost: the connection is lost; of no call it is known whether it was done
        :raises GrammarError: there are no calls
        """
        return self._sending()()


def undone() -> Undone:
    """What stands in the place of the answer to a call that the server has undone."""
    return Undone('the server has undone this call of the batch')


def not_done() -> NotDone:
    """What stands in the place of the answer to a call that the server has not come to."""
    return NotDone('the server has not done this call of the batch')
