#!/usr/bin/env python3
"""A call in the words of kmip_call, made by kmip: its words are turned into those of kmip.

    call.py KMIP HOST PORT CERTIFICATE KEY AUTHORITY CALL WORD..

The kinds of words are those that kmip_call prints (KMIP_CALL is its path). The settings that the cases
for each client set, as KMIP_TIMEOUT, are those of kmip under another name. The answer is written as
kmip_call has it, {"answer":..}; where it goes to a device or nowhere, kmip writes it itself.
"""

import json
import os
import stat
import subprocess
import sys

sys.dont_write_bytecode = True
sys.path.insert(0, os.path.join(os.path.dirname(os.path.abspath(__file__)), "../../.."))
from grammar import Grammar  # noqa: E402

SETTINGS = {
    "KMIP_USER": "USER", "KMIP_PASSWORD": "PASSWORD", "KMIP_PASSPHRASE": "PASSPHRASE",
    "KMIP_PASSPHRASE_FILE": "PASSPHRASE_FILE", "KMIP_LIMIT": "LIMIT", "KMIP_TIMEOUT": "SECONDS",
    "KMIP_RECORD": "RECORD",
}
FORMS = {
    "ID": "Identifier", "DATA": "Hex", "MAC": "Hex", "SIGNATURE": "Hex", "HEX": "Hex",
    "PRIVATE-NAME": "Text", "PUBLIC-NAME": "Text", "NAME": "Text",
}
OPTION_FORMS = {"ID": "Identifier", "HEX": "Hex", "TEXT": "Text"}


def grammar():
    """What kmip_call prints."""
    program = os.environ["KMIP_CALL"]
    lines = [subprocess.run([program, word], check=True, capture_output=True, text=True).stdout
             for word in ("--grammar", "--operations")]
    return Grammar(json.loads(lines[0]), lines[1].splitlines())


def typed(kind, word):
    """A word of this kind as kmip takes it."""
    if kind in ("Hex", "Request"):
        return word if word.startswith("@") else "hex:" + word
    if kind == "Payload":
        return word if word.startswith("@") else "text:" + word
    if kind == "Identifier":
        return "id:" + ("text:" + word if word else "")
    if kind == "Text":
        return "text:" + word
    if kind == "Attribute":
        name, equals, value = word.partition("=")
        return name + equals + ("text:" + value if equals else "")
    return word


def kinds_of(call):
    """The kinds of the words of a call, that of those behind them, and those of its options."""
    table = grammar()
    for row in table.all:
        if row["name"] == call:
            options = {one["name"].rstrip("="): one["kind"] for one in row["options"]}
            more = "Text" if row["rest"] == "Names" else None
            return [word["kind"] for word in row["words"]], more, options
    for form in table.operations:
        if form.name == call:
            options = {name: OPTION_FORMS.get(value) for name, value in form.options.items()}
            return [FORMS.get(word) for word in form.words], "Identifier", options
    return None


def located(words):
    if len(words) == 1:
        return ["name:text:" + words[0]]
    return [word if word == "where" else typed("Attribute", word) for word in words]


def registered(words):
    made = ["@" + words[0]] if words else []
    return made + ["--" + word.replace("=", "=text:", word.startswith("name=")) for word in words[1:]]


def turned(call, words):
    """The words of kmip."""
    if call == "pem":
        return ["get", *(typed("Identifier", word) for word in words), "--pem"]
    if call.startswith("register-"):
        return [call, *registered(words)]
    if call == "locate":
        return [call, *located(words)]
    known = kinds_of(call)
    if known is None:
        return [call, *words]
    kinds, more, options = known
    made = [call]
    for at, word in enumerate(words):
        name, equals, value = word.partition("=")
        if at < len(kinds):
            made.append(typed(kinds[at], word))
        elif name in options:
            made.append(f"--{name}={typed(options[name], value)}" if equals else f"--{name}")
        elif options or not more:
            # (an option of another call)
            made.append(f"--{name}={value}" if equals else word)
        else:
            made.append(typed(more, word))
    if call == "get" and "KMIP_PEM" in os.environ:
        made.append("--pem")
    return made


def is_wrapped():
    """Whether the answer is written to what keeps it."""
    try:
        mode = os.fstat(1).st_mode
    except OSError:
        return False
    return stat.S_ISREG(mode) or stat.S_ISFIFO(mode)


def main():
    kmip, host, port, certificate, key, authority, *rest = sys.argv[1:]
    if not rest:
        sys.exit(2)
    for name, setting in SETTINGS.items():
        if name in os.environ:
            os.environ["METSUWAN_" + setting] = os.environ[name]
    host = f"[{host}]" if ":" in host else host
    os.environ.update(METSUWAN_CONF="/dev/null", METSUWAN_CERTIFICATE=certificate, METSUWAN_KEY=key,
                      METSUWAN_AUTHORITY=authority)
    words = [kmip, "--server", f"{host}:{port}", *turned(rest[0], rest[1:])]
    if "--pem" in words or not is_wrapped():
        os.execv(kmip, words)
    made = subprocess.run(words, stdout=subprocess.PIPE, check=False)
    if made.stdout:
        sys.stdout.buffer.write(b'{"answer":' + made.stdout.rstrip(b"\n") + b"}\n")
        sys.stdout.flush()
    sys.exit(made.returncode if made.returncode >= 0 else 128 - made.returncode)


main()
