"""Items of messages: what requests and responses of any operation are made of."""
from __future__ import annotations

import datetime
from typing import Any, Dict, Iterable, Mapping, Optional, Sequence, Union

from .calls import USES
from .errors import GrammarError, MissingValue

Value = Union[str, bytes, bytearray, memoryview, bool, int, datetime.datetime,
              Sequence[Mapping[str, Any]]]
EPOCH = datetime.datetime(1970, 1, 1, tzinfo=datetime.timezone.utc)
# The bits of masks. KMIP's encodings have MACGenerate for MacGenerate.
BITS = {'onlinestorage': 1, 'archivalstorage': 2, **{name.lower(): USES[name] for name in USES}}


def _type_of(value: Value) -> str:
    """The type of an item with this value, where none is given."""
    if isinstance(value, str):
        return 'TextString'
    if isinstance(value, (bytes, bytearray, memoryview)):
        return 'ByteString'
    if isinstance(value, bool):
        return 'Boolean'
    if isinstance(value, int):
        return 'Integer'
    if isinstance(value, datetime.datetime):
        return 'DateTime'
    return 'Structure'


def _json_of(kind: str, value: Value) -> Any:
    """The value of an item of this type, as JSON has it."""
    if isinstance(value, (bytes, bytearray, memoryview)):
        digits = bytes(value).hex().upper()
        return '0x' + digits if kind == 'BigInteger' else digits
    if isinstance(value, datetime.datetime):
        if value.tzinfo is None:
            raise ValueError('a date has to have its time zone')
        value = (value - EPOCH) // datetime.timedelta(seconds=1)
    # A number past 2^52 has to be in hex, and any may be.
    if kind in ('LongInteger', 'DateTime') and isinstance(value, int):
        if not -1 << 63 <= value < 1 << 63:
            raise GrammarError('a %s has 64 bits, and this value has more' % kind)
        return '0x%016X' % (value & (1 << 64) - 1)
    if isinstance(value, (str, int)):
        return value
    if not isinstance(value, Iterable):
        raise TypeError('an item has no value of the type %s' % type(value).__name__)
    return list(value)


def _mask_of(names: str) -> int:
    """The number of a mask as ``Encrypt|Decrypt|0x00100000``: the names of its bits, and bits in
    hex."""
    bits = 0
    for name in names.split('|'):
        bits |= int(name, 16) if name.startswith('0x') else BITS[name.lower()]
    return bits - (bits >> 31 << 32)


def _number_of(kind: str, value: Union[int, str]) -> int:
    """The number that a value of this type is.

    :raises KeyError: it is none
    :raises ValueError: it is none
    """
    if isinstance(value, int):
        return value
    if kind == 'Integer':
        return _mask_of(value)
    if value.startswith('0x'):
        return int.from_bytes(bytes.fromhex(value[2:]), 'big', signed=True)
    return (datetime.datetime.fromisoformat(value) - EPOCH) // datetime.timedelta(seconds=1)


def _shown(item: Any) -> str:
    """An item, or a dict that is one, with no value: tags and types alone."""
    if not isinstance(item, Mapping):
        return type(item).__name__
    value, kind = item.get('value'), item.get('type', 'Structure')
    if kind == 'Structure' and isinstance(value, (list, tuple)):
        kind = '[%s]' % ', '.join(map(_shown, value))
    return '%s: %s' % (item.get('tag'), kind)


class Item(Dict[str, Any]):
    """An item of a message: a tag and a value. It is a dict as well, that of the JSON of KMIP's
    Additional Message Encodings, with ``tag``, ``type`` and ``value``; a dict of that kind will do
    wherever an item is taken. ``repr`` shows tags and types alone, since a value may be of a key.

    ``tag`` is the name of KMIP's table without spaces, or a number as ``'0x420094'``. The type
    follows from the value, or is given::

        Item('UniqueIdentifier', '4')                       # a Text String
        Item('Data', b'hello')                              # a Byte String
        Item('BatchCount', 1)                               # an Integer
        Item('RandomIV', True)                              # a Boolean
        Item('ActivationDate', datetime.now(timezone.utc))  # a Date-Time
        Item('Name', [Item('NameValue', 'k'), ..])          # a structure
        Item('BlockCipherMode', 'CBC', 'Enumeration')
        Item('ActivationDate', 1700000000, 'DateTime')
        Item('LeaseTime', 3600, 'Interval')
        Item('ValidityDate', 1 << 60, 'LongInteger')
        Item('Modulus', bytes(8), 'BigInteger')
    """

    def __init__(self, tag: str, value: Value, type: Optional[str] = None) -> None:
        kind = type or _type_of(value)
        super().__init__(tag=tag)
        if kind != 'Structure':
            self['type'] = kind
        self['value'] = _json_of(kind, value)

    @classmethod
    def of_json(cls, made: Mapping[str, Any]) -> 'Item':
        """The item that a dict is."""
        value = made['value']
        kind = made.get('type', 'Structure')
        return cls(made['tag'], list(map(cls.of_json, value)) if kind == 'Structure' else value,
                   kind)

    def __repr__(self) -> str:
        return _shown(self)

    def at(self, path: str) -> 'Item':
        """The item at a path of tags below this one, with a dot between two, as
        ``KeyBlock.KeyFormatType``. A number after a tag counts, from 0, among the items with this
        tag: ``Attribute.1.AttributeName``.

        :raises MissingValue: there is none
        """
        found: Any = self
        parts = path.split('.')
        while parts:
            tag, index = parts.pop(0), 0
            if parts and parts[0].isascii() and parts[0].isdigit():
                index = int(parts.pop(0))
            items = found['value'] if found.get('type', 'Structure') == 'Structure' else []
            same = [item for item in items if item['tag'] == tag]
            if index >= len(same):
                raise MissingValue('%s has no %s' % (self['tag'], path))
            found = same[index]
        return found if isinstance(found, Item) else Item.of_json(found)

    def _value_at(self, path: str, what: str, *kinds: str) -> Any:
        found = self.at(path)
        if found.get('type') not in kinds:
            raise MissingValue('%s has no %s at %s' % (self['tag'], what, path))
        return found['value']

    def text_at(self, path: str) -> str:
        """The text of the Text String at a path.

        :raises MissingValue: there is none
        """
        text: str = self._value_at(path, 'text', 'TextString')
        return text

    def bytes_at(self, path: str) -> bytes:
        """The bytes of the Byte String or Big Integer at a path.

        :raises MissingValue: there are none
        """
        digits: str = self._value_at(path, 'bytes', 'ByteString', 'BigInteger')
        try:
            return bytes.fromhex(digits[2:] if digits.startswith('0x') else digits)
        except ValueError:
            raise MissingValue('%s has no bytes at %s' % (self['tag'], path)) from None

    def name_at(self, path: str) -> str:
        """The name of the Enumeration at a path, or its number as ``0x00000001`` where its table is
        not among those of the library.

        :raises MissingValue: there is none
        """
        name: str = self._value_at(path, 'enumeration', 'Enumeration')
        return name

    def number_at(self, path: str) -> int:
        """The number of the Integer, Long Integer or Interval at a path, or the seconds since
        1970-01-01 UTC of the Date-Time.

        :raises MissingValue: there is none
        """
        value = self._value_at(path, 'number', 'Integer', 'LongInteger', 'Interval', 'DateTime')
        try:
            return _number_of(self.at(path)['type'], value)
        except (KeyError, ValueError):
            raise MissingValue('%s has no number at %s' % (self['tag'], path)) from None


def attribute(name: str, value: Value) -> Item:
    """An attribute of an object, by its name, as ``Cryptographic Usage Mask``, and its value."""
    return Item('Attribute', [Item('AttributeName', name), Item('AttributeValue', value)])
