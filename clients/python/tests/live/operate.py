"""One call of any operation of KMIP 1.2, whose payload is JSON: it writes the answer.

    operate.py HOST PORT CERTIFICATE KEY AUTHORITY OPERATION PAYLOAD
"""
import json
import sys

from metsuwan import Client, KmipError

host, port, cert, key, ca, operation, payload = sys.argv[1:]
try:
    with Client(host, port, cert=cert, key=key, ca=ca, timeout=60) as kmip:
        print(json.dumps({'answer': kmip.operation(operation, payload)}))
except KmipError as error:
    print(json.dumps(error.line()))
    sys.exit(1)
