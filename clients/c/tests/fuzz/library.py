"""The library of metsuwan.h for the fuzzers, by ctypes: LIBMETSUWAN is its file."""
import ctypes
import os
from typing import Any, List, NamedTuple, Optional, Tuple, Union

GRAMMAR = -2
Words = List[Union[str, bytes]]                 # texts, and data


class Operation(NamedTuple):
    """Any operation: its name, version, payload in JSON and ID, and whether its answer is plain."""

    name: bytes
    version: bytes
    payload: bytes
    item_id: bytes = b''
    is_plain: bool = False


class Word(ctypes.Structure):
    """A kmip_word."""

    _fields_ = [('bytes', ctypes.c_char_p), ('length', ctypes.c_size_t), ('is_data', ctypes.c_bool)]


def _word(word: Union[str, bytes]) -> Word:
    octets = word.encode() if isinstance(word, str) else word
    return Word(octets, len(octets), isinstance(word, bytes))


def _parts(call: Union[Words, Operation], item_id: bytes, has_id: bool = True) -> List[Any]:
    """What says which call it is, as the functions take it."""
    if isinstance(call, Operation):
        texts = [call.name, call.version, *([call.item_id] if has_id else []), call.payload]
        return [part for text in texts for part in (text, len(text))]
    words = (Word * len(call))(*map(_word, call))
    return [words, len(call), *([item_id, len(item_id)] if has_id else [])]


class Library:
    """Its calls; a negative number stands for what is none."""

    def __init__(self) -> None:
        self._library = ctypes.CDLL(os.environ['LIBMETSUWAN'])
        for name in ('request', 'refusal', 'value', 'operation_request', 'operation_refusal'):
            self._of(name).restype = ctypes.c_int64

    def _of(self, name: str) -> Any:
        return getattr(self._library, 'kmip_' + name)

    def _made(self, name: str, parts: List[Any]) -> Union[bytes, int]:
        """What such a function writes, or its negative number."""
        room = 1 << 16
        while True:
            into = ctypes.create_string_buffer(room)
            given = [ctypes.c_size_t(part) if type(part) is int else part for part in parts]
            length: int = self._of(name)(*given, into, ctypes.c_size_t(room))
            if length < 0:
                return length
            if length <= room:
                return into.raw[:length]
            room = length

    def request(self, call: Union[Words, Operation], item_id: bytes = b'') -> Union[bytes, int]:
        name = 'operation_request' if isinstance(call, Operation) else 'request'
        credential = [ctypes.c_bool(False), b'', 0, b'', 0]
        return self._made(name, _parts(call, item_id) + credential)

    def refusal(self, call: Union[Words, Operation]) -> Union[bytes, int]:
        name = 'operation_refusal' if isinstance(call, Operation) else 'refusal'
        return self._made(name, _parts(call, b'', has_id=False))

    def value(self, line: bytes, path: str, is_hex: bool) -> Union[bytes, int]:
        where = path.encode()
        return self._made('value', [line, len(line), where, len(where), ctypes.c_bool(is_hex)])

    def answer(self, call: Union[Words, Operation], response: bytes,
               item_id: bytes = b'') -> Tuple[int, bytes]:
        """The status, and the line."""
        name, parts = 'answer', _parts(call, item_id) + [response, len(response)]
        if isinstance(call, Operation):
            name = 'operation_answer'
            parts.append(ctypes.c_bool(call.is_plain))
        given = [ctypes.c_size_t(part) if type(part) is int else part for part in parts]
        room, length = 4096 + 8 * len(response), ctypes.c_int64()
        while True:
            into = ctypes.create_string_buffer(room)
            status: int = self._of(name)(*given, into, ctypes.c_size_t(room), ctypes.byref(length))
            if length.value <= room:
                return status, into.raw[:length.value]
            room = length.value


def known(made: Union[bytes, int]) -> Optional[bytes]:
    """What was made, or None for a negative number."""
    return made if isinstance(made, bytes) else None
