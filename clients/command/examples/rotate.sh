#!/bin/bash
# Key rotation: a new RSA pair is made, made active and tried; it takes over the name of the old private key, which is
# then revoked and destroyed.
#
#   rotate.sh HOST PORT CERTIFICATE KEY AUTHORITY OLD-PRIVATE-KEY NAME
#
# It writes the new private key's identifier. The status is that of the first call that was not answered, and nothing is
# done after it: the old key is revoked only when the new one has its name. It is 4, where the identifier could not be
# written. KMIP is the program, where it is not on the path.
set -u
if (($# != 7)); then
    echo "usage: $0 HOST PORT CERTIFICATE KEY AUTHORITY OLD-PRIVATE-KEY NAME" >&2
    exit 2
fi
export METSUWAN_SERVER=$1:$2 METSUWAN_CERTIFICATE=$3 METSUWAN_KEY=$4 METSUWAN_AUTHORITY=$5
kmip=${KMIP:-kmip} old=id:$6 name=$7

step() { # WORD..
    "$kmip" "$@" >/dev/null || exit
}

new=$("$kmip" create-rsa 2048 "text:$name, new" "text:$name, public" --raw) || exit
step activate "id:$new"
step sign "id:$new" text:hello
step rename "$old" "text:$name, old"
step rename "id:$new" "text:$name"
step revoke "$old"
step destroy "$old"
if ! printf '%s\n' "$new" 2>/dev/null; then
    printf '{"error":"NotWritten","text":"locate finds the new private key by its name"}\n' >&2
    exit 4
fi
