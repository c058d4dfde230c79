# shellcheck shell=bash
# needs: server
# Operations, keys and certificates past the calls of words.
PYTHONPATH=$top/clients/python LIBMETSUWAN=$built/libmetsuwan.so timeout $((200 * slack)) "$python" -B "$own/operations.py" \
    "$host" "$port" "$certificate" "$key" "$authority" "$certs/objects" 2>"$said"
verdict 'operations ends well'
. "$here/registered.sh"
