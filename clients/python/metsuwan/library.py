"""The proved library: requests and answers as bytes. ``metsuwan.h`` says what its calls do."""
from __future__ import annotations

import ctypes
import os
from typing import Any, List, NamedTuple, Optional, Tuple, Union

from .errors import LibraryError

Credential = Optional[Tuple[bytes, bytes]]


class Words(NamedTuple):
    """A call by its words: of each its bytes, and whether they are data, or a text in UTF-8 as it
    is; and its Unique Batch Item ID, which has no bytes where none is sent. The request of a typed
    call has none, whatever stands here."""

    words: Tuple[Tuple[bytes, bool], ...]
    item_id: bytes = b''

    @property
    def name(self) -> bytes:
        """The name of the call, which is empty where there are no words."""
        return self.words[0][0] if self.words else b''


class Operation(NamedTuple):
    """A call of any operation: its name, the version of KMIP, its payload in JSON, and its Unique
    Batch Item ID, which has no bytes where none is sent."""

    name: bytes
    version: bytes
    payload: bytes
    item_id: bytes = b''


Call = Union[Words, Operation]


# The version of the library's calls, which a library of another one does not have.
MAJOR = '2'
# What the library returns in place of a length.
GRAMMAR, NOT_A_MESSAGE, TOO_LONG, MEMORY, NO_FORM = -2, -3, -4, -5, -6
# The statuses of an answer.
ANSWERED, REFUSED, CALL_GRAMMAR, LOST, NO_MEMORY = 0, 1, 2, 3, 5


class _Word(ctypes.Structure):
    """``kmip_word``."""

    _fields_ = [('bytes', ctypes.c_char_p), ('length', ctypes.c_size_t),
                ('is_data', ctypes.c_bool)]


def _path() -> str:
    """The library that the environment names, that of this package, or the system's."""
    own = os.path.join(os.path.dirname(__file__), 'libmetsuwan.so')
    system = 'libmetsuwan.so.' + MAJOR
    return os.environ.get('LIBMETSUWAN') or (own if os.path.exists(own) else system)


def _with_lengths(*parts: bytes) -> List[Any]:
    made: List[Any] = []
    for part in parts:
        made += part, len(part)
    return made


def _words(call: Words) -> List[Any]:
    """The words of a call, and how many they are. They point to the bytes, and copy nothing."""
    words = [_Word(word, len(word), is_data) for word, is_data in call.words]
    return [(_Word * len(words))(*words), len(words)]


def _parts_of(call: Call) -> List[Any]:
    """What a request is made of, and an answer read by."""
    if isinstance(call, Operation):
        return _with_lengths(call.name, call.version, call.item_id, call.payload)
    return [*_words(call), *_with_lengths(call.item_id)]


def _length_of(call: Call) -> int:
    """How many bytes a call is given as."""
    if isinstance(call, Operation):
        return sum(map(len, call))
    return sum(len(word) for word, _ in call.words)


def _front(room: Any, length: int) -> bytes:
    """The first bytes of a buffer. (Of a length ``ctypes.string_at`` takes the low 32 bits.)"""
    return memoryview(room)[:length].tobytes()


def _loaded(path: str) -> ctypes.CDLL:
    try:
        return ctypes.CDLL(path)
    except OSError as error:
        raise LibraryError('%s; clients/build.sh makes it, and LIBMETSUWAN may name it'
                           % error) from error


class Library:
    """The calls of ``libmetsuwan.so``.

    :raises LibraryError: there is none, or it is another one, or of another version
    """

    def __init__(self, path: Optional[str] = None) -> None:
        where = path or _path()
        library = _loaded(where)
        try:
            self._version = self._version_of(library)
            # Calls of another version have other arguments: none is made before this.
            if self._version.partition('.')[0] != MAJOR:
                raise LibraryError('%s is libmetsuwan %s, and this package wants version %s'
                                   % (where, self._version, MAJOR))
            self._bind(library)
        except AttributeError as error:
            raise LibraryError('%s is another library, or another version of it: %s'
                               % (where, error)) from error

    @staticmethod
    def _version_of(library: ctypes.CDLL) -> str:
        library.kmip_version.restype = ctypes.c_char_p
        said: bytes = library.kmip_version()
        return said.decode()

    def _bind(self, library: ctypes.CDLL) -> None:
        text, size, signed, flag = (ctypes.c_char_p, ctypes.c_size_t, ctypes.c_int64,
                                    ctypes.c_bool)
        words: List[Any] = [ctypes.POINTER(_Word), size]
        credential: List[Any] = [flag, text, size, text, size]
        line: List[Any] = [text, size, ctypes.POINTER(signed)]
        self._request = library.kmip_request
        self._request.restype = signed
        self._request.argtypes = [*words, text, size, *credential, text, size]
        self._operation_request = library.kmip_operation_request
        self._operation_request.restype = signed
        self._operation_request.argtypes = [text, size] * 4 + [*credential, text, size]
        self._refusal = library.kmip_refusal
        self._refusal.restype = signed
        self._refusal.argtypes = [*words, text, size]
        self._operation_refusal = library.kmip_operation_refusal
        self._operation_refusal.restype = signed
        self._operation_refusal.argtypes = [text, size] * 4
        self._contents_len = library.kmip_contents_len
        self._contents_len.restype = signed
        self._contents_len.argtypes = [text, size, ctypes.c_uint32]
        self._answer = library.kmip_answer
        self._answer.restype = ctypes.c_int32
        self._answer.argtypes = [*words, text, size, text, size, *line]
        self._operation_answer = library.kmip_operation_answer
        self._operation_answer.restype = ctypes.c_int32
        self._operation_answer.argtypes = [text, size] * 5 + [flag, *line]

    def version(self) -> str:
        """Which library it is: ``2.0, proved``, ``2.0, not proved`` or ``2.0, proof unknown``."""
        return self._version

    def request(self, call: Call, credential: Credential = None) -> Union[bytes, int]:
        """The request of a call, or a negative number."""
        make = self._operation_request if isinstance(call, Operation) else self._request
        user, password = credential or (b'', b'')
        given = [*_parts_of(call), credential is not None, *_with_lengths(user, password)]
        room = 4096 + _length_of(call) + len(user) + len(password)
        while True:
            into = ctypes.create_string_buffer(room)
            length: int = make(*given, into, room)
            if length < 0:
                return length
            if length <= room:
                return _front(into, length)
            room = length

    def refusal(self, call: Call) -> Optional[str]:
        """Why a call is none: which of its words, or which place of its payload, is wrong, and what
        may stand there. None where it is one.

        :raises MemoryError:
        """
        if isinstance(call, Operation):
            read = self._operation_refusal
            given = _with_lengths(call.name, call.version, call.payload)
        else:
            read, given = self._refusal, _words(call)
        room = 1024
        while True:
            into = ctypes.create_string_buffer(room)
            length: int = read(*given, into, room)
            if length == MEMORY:
                raise MemoryError
            if length < 0:
                return None
            if length <= room:
                return _front(into, length).decode()
            room = length

    def contents_len(self, head: bytes, limit: int) -> int:
        """How many bytes follow the 8 of a head, or a negative number. The limit 0 is none."""
        length: int = self._contents_len(head, len(head), limit)
        return length

    def answer(self, call: Call, response: bytes) -> Tuple[int, str]:
        """The status of a response, and its line of JSON."""
        given = [*_parts_of(call), *_with_lengths(response)]
        read = self._answer
        if isinstance(call, Operation):
            read = self._operation_answer
            given.append(False)  # as a tree
        room = 4096 + 4 * len(response)
        while True:
            into, length = ctypes.create_string_buffer(room), ctypes.c_int64()
            status: int = read(*given, into, room, length)
            if length.value <= room:
                return status, _front(into, length.value).decode()
            room = length.value
