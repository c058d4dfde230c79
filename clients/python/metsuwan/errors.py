"""What a call raises when it is not answered. The names are KMIP clients' kinds of errors."""
from __future__ import annotations

from typing import Any, Dict, Mapping, Optional, Tuple, Type

LOST = 3


def shown(text: str) -> str:
    """A text with what a terminal would act on, or not show, as Python writes it: controls, and
    signs that turn the direction of what follows."""
    return ''.join(sign if sign.isprintable() else sign.encode('unicode_escape').decode('ascii')
                   for sign in text)


class Reason(int):
    """A Result Reason of a server: its number, and KMIP's name of it, as ``PermissionDenied``, or
    None where KMIP 1.2 has none.

        if error.reason is not None and error.reason.name == 'PermissionDenied':
    """

    name: Optional[str]

    def __new__(cls, number: int, name: Optional[str] = None) -> 'Reason':
        made = super().__new__(cls, number)
        made.name = name
        return made

    def __getnewargs__(self) -> Tuple[int, Optional[str]]:  # type: ignore[override]
        return int(self), self.name

    def __repr__(self) -> str:
        return 'Reason(%d, %r)' % (self, self.name)

    @classmethod
    def of_json(cls, json: Any) -> Optional['Reason']:
        """The reason that an error's line of JSON has: an object with a name and a number, or a
        number alone."""
        if isinstance(json, int):
            return cls(json)
        if not isinstance(json, dict) or not isinstance(json.get('number'), int):
            return None
        return cls(json['number'], json.get('name'))

    def json(self) -> Dict[str, Any]:
        """The same, as JSON has it."""
        name = {} if self.name is None else {'name': self.name}
        return {**name, 'number': int(self)}


class KmipError(Exception):
    """A call that was not answered.

    ``kind`` is the name of the error, ``text`` what is said of it. Where the server reports a
    failure, ``reason`` is its Result Reason, a number with a ``name``, and ``message`` its Result
    Message. Where a response came that is no answer, ``response`` is its skeleton, the tags, types
    and numbers of enumerations that it has. Otherwise they are None.

    ``was_sent`` is whether the server may have read a part of the request. Where it is False, the
    call may be made again.
    """

    kind = 'Unknown'
    was_sent = False

    def __init__(self, text: str) -> None:
        super().__init__(text)
        self.text = text
        self.reason: Optional[Reason] = None
        self.message: Optional[str] = None
        self.response: Optional[str] = None

    def __str__(self) -> str:
        """The text, which may be a server's, as a terminal can be shown it; ``text`` has it as it
        is."""
        return shown(self.text)

    def line(self) -> Dict[str, Any]:
        """The error as a line of JSON has it: ``error``, ``text`` and what else is known."""
        reason = None if self.reason is None else self.reason.json()
        known = {'error': self.kind, 'text': self.text, 'reason': reason,
                 'message': self.message, 'response': self.response}
        return {name: value for name, value in known.items() if value is not None}


class GrammarError(KmipError, ValueError):
    """The call is not of the grammar. Nothing was sent."""

    kind = 'GrammarError'


class NotRecorded(KmipError):
    """The call was made, and the function that is told its record has raised ``__cause__``. The
    connection is good. ``answer`` is what the call would have returned, or the error that it would
    have raised; of a batch, all its answers."""

    kind = 'NotRecorded'
    was_sent = True

    def __init__(self, text: str, answer: Any = None) -> None:
        super().__init__(text)
        self.answer = answer


class LibraryError(KmipError, OSError):
    """There is no library that can be loaded, or it is not this package's. Nothing was sent."""

    kind = 'LibraryError'


class MissingValue(KmipError, LookupError):
    """The call was answered, and its answer has not the value that was asked for."""

    kind = 'MissingValue'
    was_sent = True


class Refused(KmipError):
    """An error after which the connection is good for the next call."""

    was_sent = True


class SerializeError(Refused):
    """The request has no wire form. Nothing was sent."""

    kind = 'SerializeError'
    was_sent = False


class ServerError(Refused):
    """The server refused the request."""

    kind = 'ServerError'


class ItemNotFound(Refused):
    """The server has no such object."""

    kind = 'ItemNotFound'


class InternalError(Refused):
    """The response is well formed, and no answer to the request."""

    kind = 'InternalError'


class NotDone(Refused):
    """The server has not done this call of a batch, as after another one that failed."""

    kind = 'NotDone'


class Undone(Refused):
    """The server has undone this call of a batch, since another one failed."""

    kind = 'Undone'


class ConnectionLost(KmipError, ConnectionError):
    """An error after which the connection is closed, and the client with it. Whether the server
    did what was asked is not known, but where nothing was sent."""

    was_sent = True


class ConnectError(ConnectionLost):
    """There is no connection, or the server refused the client's certificate. The server has read
    nothing of the request."""

    kind = 'ConnectError'
    was_sent = False


class RequestWriteError(ConnectionLost):
    """The connection failed before the whole request was sent."""

    kind = 'RequestWriteError'

    def __init__(self, text: str, was_sent: bool = False) -> None:
        super().__init__(text)
        self.was_sent = was_sent


class ResponseReadError(ConnectionLost):
    """The connection failed or ended before a whole response was read, or its time was over."""

    kind = 'ResponseReadError'


class DeserializeError(ConnectionLost):
    """The response is not well formed, or longer than the limit."""

    kind = 'DeserializeError'


class OtherObject(ConnectionLost):
    """The response is none to this call: it is about another object or of another operation, or is
    none of one operation. It was meant for another call."""

    kind = 'InternalError'


def _by_kind(*errors: Type[KmipError]) -> Dict[str, Type[KmipError]]:
    return {error.kind: error for error in errors}


REFUSALS = _by_kind(SerializeError, ServerError, ItemNotFound, InternalError)
LOSSES = _by_kind(RequestWriteError, ResponseReadError, DeserializeError, OtherObject)
LOSSES['ServerError'] = LOSSES['ItemNotFound'] = OtherObject


def error_of(status: int, line: Mapping[str, Any]) -> KmipError:
    """The error of a status, 1 or 3, and a line of JSON."""
    known, other = (LOSSES, ConnectionLost) if status == LOST else (REFUSALS, Refused)
    error = known.get(line['error'], other)(line['text'])
    error.kind = line['error']
    error.reason = Reason.of_json(line.get('reason'))
    error.message = line.get('message')
    error.response = line.get('response')
    return error
