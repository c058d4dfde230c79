# shellcheck shell=bash
# needs: server
# The tasks of clients/python/README.md, as they stand there.
lines_of_tasks python >lines.py
cat >tasks.py <<'CODE'
import sys
from metsuwan import Client

host, port, cert, key, ca = sys.argv[1:]
with Client(host, port, cert=cert, key=key, ca=ca, timeout=120) as kmip, open('lines.py') as lines:
    exec(compile(lines.read(), 'lines.py', 'exec'))
    print(state)
print('the end')
CODE
cp "$authority" ca.pem
PYTHONPATH=$top/clients/python LIBMETSUWAN=$built/libmetsuwan.so timeout $((200 * slack)) "$python" -B tasks.py \
    "$host" "$port" "$certificate" "$key" "$authority" >"$said" 2>&1
verdict 'all tasks'
says 'to their end' '^the end$'
says 'the state of the key is told' '^Active$'
says 'the public key is PEM' '^-----BEGIN RSA PUBLIC KEY-----$'
says 'so is the certificate' '^-----BEGIN CERTIFICATE-----$'
