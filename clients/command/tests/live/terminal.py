#!/usr/bin/env python3
"""Runs a program on a terminal of its own, types into it when it asks, and looks at what comes of it.

    terminal.py TYPED STATUS REGEX PROGRAM WORD..

STATUS is negative where a signal ends it. What is typed may not be shown, and at the end the terminal shows
again what is typed.
"""

import os
import pty
import re
import select
import signal
import sys
import termios
import time


def read(terminal, process, until):
    """What the program writes, to its end, or until it asks; and its status, where it has ended."""
    got, end = b"", time.monotonic() + 100
    while time.monotonic() < end:
        if select.select([terminal], [], [], 0.1)[0]:
            try:
                got += os.read(terminal, 65536)
            except OSError:
                pass
        if until and re.search(until, got):
            return got, None
        ended, status = os.waitpid(process, os.WNOHANG)
        if ended:
            while select.select([terminal], [], [], 0.2)[0]:
                got += os.read(terminal, 65536)
            return got, os.waitstatus_to_exitcode(status)
    return got, None


def main():
    typed, wanted, regex, *words = sys.argv[1:]
    master, slave = pty.openpty()
    process = os.fork()
    if process == 0:
        os.setsid()
        signal.signal(signal.SIGINT, signal.SIG_DFL)  # (a shell ignores it for what it runs behind itself)
        os.close(os.open(os.ttyname(slave), os.O_RDWR))  # it is then the terminal that controls it
        for descriptor in range(3):
            os.dup2(slave, descriptor)
        os.execv(words[0], words)
    got, status = b"", None
    if typed:
        got, status = read(master, process, rb"(passphrase|password): ")
        time.sleep(0.3)
        os.write(master, typed.encode())
    if status is None:
        more, status = read(master, process, None)
        got += more
    shows = termios.tcgetattr(slave)[3] & termios.ECHO != 0
    text = got.decode(errors="replace")
    print(text)
    print(f"status {status}, echo {shows}")
    is_shown = len(typed) > 2 and typed.strip() in text
    sys.exit(0 if status == int(wanted) and re.search(regex, text) and shows and not is_shown else 1)


main()
