# shellcheck shell=bash
# needs: server
# The tasks of clients/shell/README.md, as they stand there.
lines=$(lines_of_tasks sh)
patience=200 script_is 'all tasks' 0 "set -euo pipefail; open; $lines
kmip_close; echo 'the end'"
says 'to their end' '^the end$'
says 'the state of the key is told' '^Active$'
[[ $(grep -c '^Success$' "$said") == 2 ]]
verdict 'both items of a batch are answered'
printf %b "$(sed 's/../\\x&/g' signature.hex)" >signature
openssl rsa -RSAPublicKey_in -in public.pem -pubout -out verifying.pem 2>"$said"
printf hello | openssl dgst -sha256 -verify verifying.pem -signature signature >"$said" 2>&1
verdict 'openssl reads the public key, and verifies the signature with it'
[[ $(<key.hex) =~ ^[0-9A-F]{64}$ ]]
verdict 'the AES key has 256 bits'
printf %b "$(sed 's/../\\x&/g' sealed.hex)" >sealed
[[ $(openssl enc -d -aes-256-cbc -K "$(<key.hex)" -iv 000102030405060708090A0B0C0D0E0F -in sealed 2>"$said") == hello ]]
verdict 'openssl decrypts what was encrypted with it'
