#!/bin/bash
# One call, whose arguments are texts. It writes the answer as one line of JSON.
#
#   call.sh HOST PORT CERTIFICATE KEY AUTHORITY CALL TEXT..
#
# The environment's KMIP_USER and KMIP_PASSWORD are a credential, KMIP_LIMIT the most bytes of a response,
# KMIP_TIMEOUT the most seconds that the call may take. With KMIP_PEM set, a key or a certificate that was got is written as
# PEM. Status: that of kmip_call, and 3 where there is no connection.
if (($# < 6)); then
    echo "usage: $0 HOST PORT CERTIFICATE KEY AUTHORITY CALL TEXT.." >&2
    exit 2
fi
. "$(dirname "$0")/kmip.sh"
kmip_open "$1:$2" "$3" "$4" "$5" || exit
if [[ -n ${KMIP_PEM+set} && $6 == get ]]; then set -- "${@:1:5}" pem "${@:7}"; fi
kmip "${@:6}"
status=$?
kmip_close
exit $status
