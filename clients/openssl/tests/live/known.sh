# shellcheck shell=bash disable=SC2154
# Whether it is known who the KMIP server is, whatever openssl.cnf says of ciphers: nothing is sent to one that has no
# certificate, or that encrypts nothing.
command -v openssl >/dev/null || return
weak() { # openssl.cnf with the provider, and with ciphers that are none
    configure "seconds = $((3 * slack))"
    sed -i 's/^\[init\]/&\nssl_conf = ssl/' "$OPENSSL_CONF"
    printf '%s\n' '[ssl]' 'system_default = weak' '[weak]' 'CipherString = ALL:eNULL:aNULL:@SECLEVEL=0' \
        'MinProtocol = TLSv1' >>"$OPENSSL_CONF"
}
is_refused() { # WHAT REGEX WORD..
    tls_server "${@:3}"
    weak
    refuses "$1: no signature, and why" "$2" openssl dgst -sha256 -sign kmip:id=priv -out never /dev/null
    stop_tls_server
    # (the tag and the type of a Request Message, 42 00 78 01)
    ! grep -qaP 'B\x00x\x01' "$work/tls_server"
    verdict "$1: nothing is sent"
}
own_key=(-cert "$certs/server.pem" -key "$certs/server.key")
is_refused 'a server without a certificate' 'no certificate' -nocert -tls1_2 -cipher 'aNULL:@SECLEVEL=0'
is_refused 'a server that encrypts nothing' 'nothing is encrypted' "${own_key[@]}" -tls1_2 -cipher 'eNULL:@SECLEVEL=0'
is_refused 'TLS 1.1' 'protocol' "${own_key[@]}" -tls1_1 -cipher 'ALL:@SECLEVEL=0'
signer
weak
does 'a good server signs' openssl dgst -sha256 -sign kmip:id=priv -out made /dev/null
