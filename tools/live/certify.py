"""The parts of a certificate in DER.

    certify.py FILE                 writes what is signed of it
    certify.py FILE SIGNATURE       writes the certificate with this signature, in hex
"""
import sys

from der import ends_of, item

with open(sys.argv[1], 'rb') as file:
    whole = file.read()
begin = ends_of(whole)[0]
signed = ends_of(whole, begin)[1]
if len(sys.argv) == 2:
    made = whole[begin:signed]
else:
    algorithm = ends_of(whole, signed)[1]
    made = item(0x30, whole[begin:algorithm] + item(3, b'\0' + bytes.fromhex(sys.argv[2])))
sys.stdout.buffer.write(made)
