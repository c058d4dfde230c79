# shellcheck shell=bash
# needs: server
# Operations, keys and certificates past the calls of words.
test_build operations "${sanitized[@]}"
test_run operations "$certs/objects"
. "$here/registered.sh"
