# shellcheck shell=bash
# A client's certificate that is refused, within the handshake by TLS 1.2 and after it by TLS 1.3: the alert is told by its name,
# and the connection is lost.
for name in refuses_early refuses; do
    fake "$name"
    call_is "$name: a call" 3 activate k
    says "$name: why" 'kmip: openssl: .*alert unknown ca'
    script_is "$name: a later call" 3 'open; kmip activate k >/dev/null 2>&1; kmip activate k; status=$?; kmip_close; exit $status'
    says "$name: it is not sent" 'nothing was sent; kmip_open opens a new one'
done
