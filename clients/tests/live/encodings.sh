# shellcheck shell=bash
# Twenty messages that were written by hand as bytes, JSON and XML.
. "$top/clients/tests/ttlv.sh"
if find_ttlv; then
    "$python" -B "$top/clients/tests/live/encodings.py" "$ttlv" "$top/clients/tests/messages" 2>"$said"
    verdict 'the messages are looked at'
fi
