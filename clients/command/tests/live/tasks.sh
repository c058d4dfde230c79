# shellcheck shell=bash disable=SC2154
# needs: server
# The tasks of clients/command/README.md, as they stand there.
lines=$(lines_of_tasks command)
export METSUWAN_CONF=/dev/null METSUWAN_SERVER=$host:$port METSUWAN_CERTIFICATE=$certificate METSUWAN_KEY=$key \
    METSUWAN_AUTHORITY=$authority
PATH=${kmip%/*}:$PATH timeout $((200 * slack)) bash -c "set -euo pipefail; $lines
echo 'the end'" >"$said" 2>&1 </dev/null
verdict 'all tasks'
says 'to their end' '^the end$'
openssl rsa -RSAPublicKey_in -in public.pem -pubout -out verifying.pem 2>"$said" &&
    openssl dgst -sha256 -verify verifying.pem -signature signature data >"$said" 2>&1
verdict 'openssl reads the public key, and verifies the signature with it'
[[ $(stat -c '%s %a' storage.key) == '32 600' ]]
verdict 'the AES key has 256 bits, and is read by its owner alone'
[[ $(stat -c %a signature) == "$(stat -c %a data)" && $(stat -c %a clear) == 600 ]]
verdict 'a signature is as any other file, what was decrypted is not'
openssl enc -d -aes-256-cbc -K "$(od -An -v -tx1 storage.key | tr -d ' \n')" -iv 000102030405060708090A0B0C0D0E0F -in sealed \
    2>"$said" | cmp - data >>"$said" 2>&1
verdict 'openssl decrypts what was encrypted with it'
