# shellcheck shell=bash
# Whether it is known who the server is, whatever openssl.cnf says: nothing is sent to one that has no certificate or that
# encrypts nothing, and TLS is 1.2 or later.
printf '%s\n' 'openssl_conf = a' '[a]' 'ssl_conf = b' '[b]' 'system_default = c' '[c]' \
    'CipherString = ALL:eNULL:aNULL:@SECLEVEL=0' 'MinProtocol = TLSv1' >weak.cnf
own_key=(-cert "$certs/server.pem" -key "$certs/server.key")
is_refused() { # WHAT REGEX WORD..
    tls_server "${@:3}"
    OPENSSL_CONF=$work/weak.cnf KMIP_TIMEOUT=$((3 * slack)) call_is "$1: no connection" 3 query
    says "$1: it is said" "$2"
    stop_tls_server
    # (the tag and the type of a Request Message, 42 00 78 01)
    ! grep -qaP 'B\x00x\x01' "$work/tls_server"
    verdict "$1: nothing is sent"
}
fake good
OPENSSL_CONF=$work/weak.cnf call_is 'a good server' 0 query
fake self_signed
OPENSSL_CONF=$work/weak.cnf call_is 'a server of no authority' 3 query
is_refused 'a server without a certificate' 'handshake failure' -nocert -tls1_2 -cipher 'aNULL:@SECLEVEL=0'
is_refused 'a server that encrypts nothing' 'handshake failure' "${own_key[@]}" -tls1_2 -cipher 'eNULL:@SECLEVEL=0'
is_refused 'TLS 1.1' 'protocol' "${own_key[@]}" -tls1_1 -cipher 'ALL:@SECLEVEL=0'
