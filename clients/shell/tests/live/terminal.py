#!/usr/bin/python3
"""An interactive bash on a terminal of its own: Ctrl-C within a call, and a call after it.

    terminal.py KMIP.SH CONTROL HOST:PORT CERTIFICATE KEY AUTHORITY

CONTROL is the port of that fake server, and HOST:PORT is the fake `held`.
Its status is 0 where the shell went on, the second call had status 3, and bash said nothing of jobs.
"""
import os
import pty
import select
import socket
import sys
import time


def main() -> int:
    script, control, server = sys.argv[1:4]
    files = sys.argv[4:7]
    process, terminal = pty.fork()
    if process == 0:
        os.environ['PS1'] = 'ready> '
        os.execvp('bash', ['bash', '--norc', '--noprofile', '-i'])
    seen = ''

    def wait_for(word, seconds=100.0):
        nonlocal seen
        until = time.monotonic() + seconds
        while word not in seen:
            readable, _, _ = select.select([terminal], [], [], max(0, until - time.monotonic()))
            if not readable:
                sys.exit('no %r within %d seconds in %r' % (word, seconds, seen))
            seen += os.read(terminal, 65536).decode('utf-8', 'replace')
        before, _, seen = seen.partition(word)
        return before

    def enter(line):
        os.write(terminal, line.encode() + b'\n')

    def ask_control(what):
        with socket.create_connection(('127.0.0.1', int(control)), 100) as wire, wire.makefile('rw') as lines:
            print(what, held, file=lines, flush=True)
            if lines.readline() != 'yes\n':
                sys.exit('%s %s: no' % (what, held))

    wait_for('ready> ')
    enter("bind 'set enable-bracketed-paste off'")
    wait_for('ready> ')
    enter('. "%s"' % script)
    wait_for('ready> ')
    enter('kmip_open %s "%s" "%s" "%s"; echo op""ened $?' % (server, *files))
    opened = wait_for('opened 0')
    wait_for('ready> ')
    held = 'held%d' % os.getpid()
    enter('kmip sign %s 4141' % held)
    ask_control('arrived')
    os.write(terminal, b'\3')
    wait_for('ready> ')
    ask_control('release')
    enter('kmip sign other 4242; echo sta""tus $?')
    answer = wait_for('status ')
    status = wait_for('\n').strip()
    wait_for('ready> ')
    enter('kmip_close; echo clo""sed $?; exit')
    closed = wait_for('closed 0')
    print(repr((opened, answer, status, closed)))
    noise = [word for word in ('[1]', '[2]', 'Terminated', 'Done') if word in opened + answer + closed]
    return 0 if status == '3' and not noise else 1


sys.exit(main())
