"""Records of exchanges: lines of a script of ``kmip_run``."""
from __future__ import annotations

import contextlib
import fcntl
import os
import random
import stat
import time
from typing import Callable, Optional

from .library import Library, Words

Record = Optional[Callable[[str], object]]
# A holder of the lock writes one entry, and is stopped or hangs where it has it longer.
MOST_WAIT = 5.0


def record_of(library: Library, request: bytes, response: bytes) -> str:
    """``raw REQUEST RESPONSE`` in hex, which ``kmip_run replay`` answers again; or, where it has no
    such call, as for Encrypt or a batch, ``message REQUEST RESPONSE``, which it has not."""
    digits = request.hex().upper()
    raw = Words(((b'raw', False), (request, True)))
    word = 'raw' if library.request(raw) == request else 'message'
    return '%s %s %s\n' % (word, digits, response.hex().upper())


def record_file(path: str) -> Callable[[str], None]:
    """What adds each entry of a record at the end of a file, as ``record=record_file(path)``. Other
    processes may add to it at the same time: it is locked for the one write alone. Where the whole
    entry cannot be written, the file is as it was, and the call is a ``NotRecorded`` with its
    answer.

    :raises OSError: the file cannot be opened, before anything is sent
    """
    path = os.path.abspath(path)
    os.close(_open(path))

    def add(line: str) -> None:
        file = _open(path)
        try:
            _lock(file, path)
            try:
                _add(file, line.encode('ascii'))
            finally:
                # Also where a child of a fork has a copy of it.
                fcntl.flock(file, fcntl.LOCK_UN)
        except BaseException:
            with contextlib.suppress(OSError):
                os.close(file)
            raise
        os.close(file)      # on a disk of another machine this may say that it is full

    return add


def _open(path: str) -> int:
    how = os.O_RDWR | os.O_APPEND | os.O_CREAT | os.O_CLOEXEC | os.O_NOCTTY
    file = os.open(path, how, 0o600)
    if file > 2:
        return file
    # It has the number of a standard stream that the program has closed.
    moved = fcntl.fcntl(file, fcntl.F_DUPFD_CLOEXEC, 3)
    os.close(file)
    return moved


def _lock(file: int, path: str) -> None:
    """Exclusive from the start: what is shared first, and then made so, is let go between."""
    end, pause = time.monotonic() + MOST_WAIT, 0.00005
    while True:
        try:
            return fcntl.flock(file, fcntl.LOCK_EX | fcntl.LOCK_NB)
        except BlockingIOError:
            if time.monotonic() >= end:
                raise TimeoutError('%s: another process has it locked' % path) from None
        time.sleep(pause / 2 + random.uniform(0, pause))
        pause = min(2 * pause, 0.01)


def _add(file: int, entry: bytes) -> None:
    """Adds the entry, behind what ends a line that was torn; or leaves the file as it was."""
    found = os.fstat(file)
    is_regular = stat.S_ISREG(found.st_mode)
    length = found.st_size
    if is_regular and length > 0 and os.pread(file, 1, length - 1) != b'\n':
        entry = b'\n' + entry
    rest = memoryview(entry)
    try:
        while rest:
            rest = rest[os.write(file, rest):]
    except OSError:
        if is_regular:      # a disk that is full takes a part
            os.ftruncate(file, length)
        raise
