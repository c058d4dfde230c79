#!/usr/bin/env python3
"""Puts a module, the script and the style into one page, whose policy allows these and nothing else.

usage: page.py MODULE.wasm PAGE.html ABOUT
       ABOUT: what the page says of its code
"""
import base64
import hashlib
import json
import os
import re
import sys

SCRIPTS = ['module', 'texts', 'dumps', 'captures', 'streams', 'values', 'tree', 'bytes', 'message',
           'facts', 'table', 'fields', 'start']


def allowed(text):
    return "'sha256-%s'" % base64.b64encode(hashlib.sha256(text.encode()).digest()).decode()


def contents(*names):
    here = os.path.dirname(os.path.abspath(__file__))
    with open(os.path.join(here, *names), encoding='utf-8') as file:
        return file.read()


def quoted(text):
    return json.dumps(text).replace('<', '\\u003c')


def script_of(module, about):
    with open(module, 'rb') as file:
        code = base64.b64encode(file.read()).decode()
    script = '\n'.join(contents('script', name + '.js') for name in SCRIPTS)
    for name, text in (('MODULE', code), ('ABOUT', about), ('EXAMPLE', contents('example.log'))):
        script = script.replace("'{{%s}}'" % name, quoted(text))
    return script


def main():
    if len(sys.argv) != 4:
        sys.exit('usage: page.py MODULE.wasm PAGE.html ABOUT')
    page = contents('page.html')
    script = script_of(sys.argv[1], sys.argv[3])
    style = re.search('<style>(.*?)</style>', page, re.S)[1]
    policy = ("default-src 'none'; script-src %s 'wasm-unsafe-eval'; style-src %s; base-uri 'none'; form-action 'none'"
              % (allowed(script), allowed(style)))
    with open(sys.argv[2], 'w', encoding='utf-8') as file:
        file.write(page.replace('{{POLICY}}', policy).replace('{{SCRIPT}}', script))


main()
