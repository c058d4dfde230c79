# shellcheck shell=bash
# needs: server
# PyKMIP's own encodings of all its operations, through JSON and XML and back.
. "$top/clients/tests/ttlv.sh"
if find_ttlv; then
    "$python" -B "$top/clients/tests/live/encodings.py" "$ttlv" pykmip 2>"$said"
    verdict "PyKMIP's messages are looked at"
fi
