#!/usr/bin/env python3
"""Scripts that call several servers, each so often: crowd.py KMIP HOW-MANY CALLS SERVERS CERTIFICATE KEY AUTHORITY. For each
change, and each signature, whose name begins with s, there is a line: `NAME STATUS SENT`."""

import json
import os
import subprocess
import sys
import threading

AT_ONCE = 25
WRITES = threading.Lock()


def line_of(name):
    return f"sign id:{name} hex:00\n" if name.startswith("s") else f"activate id:{name}\n"


def is_right(name, answer):
    return not name.startswith("s") or bytes.fromhex(answer["signature_data"]) == b"signature by " + name.encode()


def run(kmip, names):
    """Makes these calls, and gives what was told of each, up to one that is lost."""
    made = subprocess.run([kmip, "run", "-"], input="".join(map(line_of, names)), capture_output=True, text=True, check=False)
    answers = [json.loads(line)["answer"] for line in made.stdout.splitlines()]
    told = [f"{name} {0 if is_right(name, answer) else 3} 1" for name, answer in zip(names, answers)]
    if len(told) < len(names):
        error = json.loads(made.stderr)
        # (a change that went out says so; a signature may have gone out, which changes nothing)
        told.append(f"{names[len(told)]} {made.returncode} {int('it may have been done there' in error['text'])}")
    return told


def work(kmip, at, calls, room):
    names = [f"{kind}{at}.{number}" for number in range(calls) for kind in "cs"]
    told = []
    with room:
        while len(told) < len(names):
            told += run(kmip, names[len(told):])
    with WRITES:
        sys.stdout.write("".join(f"{line}\n" for line in told))
        sys.stdout.flush()


def main():
    kmip, count, calls, server, certificate, key, authority = sys.argv[1:]
    os.environ.update(METSUWAN_CONF="/dev/null", METSUWAN_SERVER=server, METSUWAN_CERTIFICATE=certificate, METSUWAN_KEY=key,
                      METSUWAN_AUTHORITY=authority, METSUWAN_SECONDS="200", METSUWAN_ORDER="turns")
    room = threading.Semaphore(AT_ONCE)
    threads = [threading.Thread(target=work, args=(kmip, at, int(calls), room)) for at in range(int(count))]
    for thread in threads:
        thread.start()
    for thread in threads:
        thread.join()


main()
