# shellcheck shell=bash
# Keys and certificates as PEM, which openssl reads: the cases of the client in C.
. "$top/clients/c/tests/live/pem.sh"
