#!/bin/bash
# The life of a key: made, active, read, used, named anew, revoked, destroyed, gone.
#
#   life.sh HOST PORT CERTIFICATE KEY AUTHORITY FOLDER
#
# It leaves the public key (PKCS#1, DER) and the signature of `hello` in FOLDER, as public.der and signature. KMIP is the
# program, where it is not on the path.
set -u
if (($# != 6)); then
    echo "usage: $0 HOST PORT CERTIFICATE KEY AUTHORITY FOLDER" >&2
    exit 2
fi
export METSUWAN_SERVER=$1:$2 METSUWAN_CERTIFICATE=$3 METSUWAN_KEY=$4 METSUWAN_AUTHORITY=$5
kmip=${KMIP:-kmip} folder=$6

need() { # WORD..: it is answered
    "$kmip" "$@" || {
        echo "life.sh: $1: status $?" >&2
        exit 1
    }
}
refused() { # WORD..
    "$kmip" "$@" 2>/dev/null
    local status=$?
    ((status == 1)) || {
        echo "life.sh: $1: status $status in place of 1" >&2
        exit 1
    }
}

need query
# `name:` says that it is a name, and none of the identifiers
need create-rsa 2048 'life, 100%' 'life, public'
need activate 'name:life, 100%'
need get 'name:life, public' -o "$folder/public.der"
need sign 'name:life, 100%' text:hello -o "$folder/signature"
private=$(need rename 'name:life, 100%' 'life, renamed' --json | sed 's/.*"unique_identifier":"\([^"]*\)".*/\1/') || exit
need revoke "id:$private"
refused sign "id:$private" text:hello
need destroy "id:$private"
refused get "id:$private"
need query
