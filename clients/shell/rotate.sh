#!/bin/bash
# Key rotation: a new RSA pair is made, made active and tried; it takes over the name of the old private key, which is
# then revoked and destroyed.
#
#   rotate.sh HOST PORT CERTIFICATE KEY AUTHORITY OLD-PRIVATE-KEY NAME
#
# It writes the new private key's identifier. The status is that of the first call that was not answered, and nothing is
# done after it: the old key is revoked only when the new one has its name. It is 4, where the identifier could not be
# written.
set -u
if (($# != 7)); then
    echo "usage: $0 HOST PORT CERTIFICATE KEY AUTHORITY OLD-PRIVATE-KEY NAME" >&2
    exit 2
fi
. "$(dirname "$0")/kmip.sh"
old=$6 name=$7

step() { # CALL WORD..
    local answer status
    answer=$(kmip "$@")
    status=$?
    if ((status != 0)); then
        printf '%s: %s\n' "$1" "$answer" >&2
        kmip_close
        exit $status
    fi
}

kmip_open "$1:$2" "$3" "$4" "$5" || exit
new=$(kmip_field private_key create-rsa 2048 "$name, new" "$name, public") || exit
step activate "$new"
step sign "$new" 68656C6C6F
step rename "$old" "$name, old"
step rename "$new" "$name"
step revoke "$old"
step destroy "$old"
kmip_close
if ! printf '%s\n' "$new" 2>/dev/null; then
    printf '{"error":"NotWritten","text":"locate finds the new private key by its name"}\n' >&2
    exit 4
fi
