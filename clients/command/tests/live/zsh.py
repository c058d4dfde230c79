#!/usr/bin/env python3
"""Types lines and the key Tab into zsh under a terminal, and looks at what it makes of them.

    zsh.py FOLDER    FOLDER has kmip, functions/_kmip and folder/tbs.der
"""

import os
import pty
import select
import sys
import time

ROWS = [
    ("kmip dest\t", "kmip destroy"),
    ("kmip sign k text:a --paddi\t", "--padding"),
    ("kmip sign k text:a --hash SHA38\t", "SHA384"),
    ("kmip sign k @folder/tb\t", "@folder/tbs.der"),
]


def read(terminal, seconds, until=None):
    """What comes within this time, or until this text is there."""
    end, got = time.monotonic() + seconds, b""
    while time.monotonic() < end:
        if select.select([terminal], [], [], 0.1)[0]:
            try:
                got += os.read(terminal, 65536)
            except OSError:
                break
        if until and until.encode() in got.replace(b"\x08", b""):
            break
    return got.decode(errors="replace")


def main():
    folder = os.path.abspath(sys.argv[1])
    process, terminal = pty.fork()
    if process == 0:
        os.chdir(folder)
        os.environ.update(PATH=folder + ":" + os.environ["PATH"], PS1="ready> ", TERM="dumb", HOME=folder)
        os.execvp("zsh", ["zsh", "-f", "-i"])
    begin = "fpath=($PWD/functions $fpath); autoload -U compinit; compinit -u -D; unsetopt zle_bracketed_paste; echo beg''un\n"
    os.write(terminal, begin.encode())
    said = read(terminal, 60, "begun")
    failed = "begun" not in said
    for line, wanted in ROWS:
        os.write(terminal, line.encode())
        said = read(terminal, 60, wanted)
        if wanted not in said.replace("\b", ""):
            print(f"{line!r}: {said!r} has no {wanted!r}")
            failed = True
        os.write(terminal, b"\x15")  # the line is taken away
        read(terminal, 0.3)
    os.close(terminal)
    os.waitpid(process, 0)
    sys.exit(1 if failed else 0)


main()
