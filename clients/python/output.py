"""How the example programs write, and their statuses: what cannot be written is said by a status,
and by no error of Python's own."""
import json
import os
import sys
from typing import Optional, TextIO

from metsuwan import ConnectionLost, GrammarError, KmipError, LibraryError


class NotWritten(KmipError):
    """What came of a call could not be written."""

    kind = 'NotWritten'


def are_closed() -> bool:
    """Whether standard output or standard error is closed. What is opened then would take its
    number, and get what is meant for it."""
    return sys.stdout is None or sys.stderr is None


def write(stream: Optional[TextIO], text: str) -> Optional[str]:
    """Writes a text to standard output or standard error: None where it was taken, or why not."""
    if stream is None:
        return 'it is closed'
    try:
        stream.write(text)
        stream.flush()
    except OSError as error:
        # What is left in its buffer would be written at the end, and fail once more.
        os.dup2(os.open(os.devnull, os.O_WRONLY), stream.fileno())
        return error.strerror or str(error)
    return None


def fail(error: KmipError) -> int:
    """Writes an error to standard error as a line of JSON, where that can be written, and gives the
    status of the program."""
    write(sys.stderr, json.dumps(error.line()) + '\n')
    if isinstance(error, GrammarError):
        return 2
    if isinstance(error, (ConnectionLost, LibraryError)):
        return 3
    return 4 if isinstance(error, NotWritten) else 1
