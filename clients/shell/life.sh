#!/bin/bash
# The life of a key: made, active, read, used, named anew, revoked, destroyed, gone.
#
#   life.sh HOST PORT CERTIFICATE KEY AUTHORITY FOLDER [COUNT]
#
# It leaves the public key (PKCS#1, DER) and the signature of `hello` in FOLDER, as public.der and signature. With a COUNT
# it also makes ten times so many queries and so many signatures, each by a process, and says how long each took.
set -u
if (($# < 6)); then
    echo "usage: $0 HOST PORT CERTIFICATE KEY AUTHORITY FOLDER [COUNT]" >&2
    exit 2
fi
. "$(dirname "$0")/kmip.sh"
folder=$6 count=${7:-0}

fail() {
    echo "life.sh: $*" >&2
    kmip_close
    exit 1
}
need() { # CALL WORD..: it is answered
    local answer
    answer=$(kmip "$@") || fail "$1: $answer"
}
refused() { # CALL WORD..: it is refused, and the connection is good
    local answer status
    answer=$(kmip "$@")
    status=$?
    ((status == 1)) || fail "$1: status $status: $answer"
}
bytes() { # the bytes of hex digits
    printf '%b' "$(sed 's/../\\x&/g')"
}
timed() { # WHAT COUNT CALL WORD..
    local what=$1 count=$2 started i
    shift 2
    started=$EPOCHREALTIME
    for ((i = 0; i < count; i++)); do need "$@"; done
    awk -v what="$what" -v from="$started" -v to="$EPOCHREALTIME" -v n="$count" \
        'BEGIN { printf "shell, a process a call: %s %.2f ms, %.0f a second\n", what, 1000 * (to - from) / n, n / (to - from) }'
}

kmip_open "$1:$2" "$3" "$4" "$5" || exit 3
vendor=$(kmip_field vendor_identification query) || fail query
[[ -n $vendor ]] || fail 'query names no vendor'
pair=$(kmip create-rsa 2048 'life, 100%' 'life, public') || fail "create-rsa: $pair"
private=$(jq -er .answer.private_key <<<"$pair") || fail "create-rsa: $pair"
public=$(jq -er .answer.public_key <<<"$pair") || fail "create-rsa: $pair"
need activate "$private"
key=$(kmip get "$public") || fail "get: $key"
[[ $(jq -r .answer.object_type <<<"$key") == PublicKey ]] || fail "get: $key"
jq -er '.answer.cryptographic_object.PublicKey.key_block.key_value.key_material.Bytes' <<<"$key" | bytes >"$folder/public.der"
kmip_field signature_data sign "$private" 68656C6C6F >"$folder/signature.hex" || fail sign
bytes <"$folder/signature.hex" >"$folder/signature"
if ((count > 0)); then
    timed query $((10 * count)) query
    timed sign "$count" sign "$private" 68656C6C6F
fi
[[ $(kmip_field unique_identifier rename "$private" 'life, renamed') == "$private" ]] || fail rename
need revoke "$private"
refused sign "$private" 68656C6C6F
need destroy "$private"
refused get "$private"
need query
kmip_close
