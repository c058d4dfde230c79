# shellcheck shell=bash disable=SC2154
# Whether it is known who the server is, whatever openssl.cnf allows: nothing is sent to a server that has no certificate, or
# that encrypts nothing.
own_key=(-cert "$certs/server.pem" -key "$certs/server.key")
printf '%s\n' 'openssl_conf = a' '[a]' 'ssl_conf = b' '[b]' 'system_default = c' '[c]' \
    'CipherString = ALL:eNULL:aNULL:@SECLEVEL=0' 'MinProtocol = TLSv1' >weak.cnf

refused_by_weak() { # WHAT REGEX WORD..: those of openssl s_server
    tls_server "${@:3}"
    OPENSSL_CONF=$work/weak.cnf KMIP_TIMEOUT=$((3 * slack)) kmip_is "$1: no connection" 3 query
    says "$1: it is said" "\"ConnectError\".*$2"
    stop_tls_server
    # (the tag and the type of a Request Message, 42 00 78 01)
    ! grep -qaP 'B\x00x\x01' "$work/tls_server"
    verdict "$1: nothing is sent"
}
refused_by_weak 'a server without a certificate' 'no certificate' -nocert -tls1_2 -cipher 'aNULL:@SECLEVEL=0'
refused_by_weak 'a server that encrypts nothing' 'encrypts nothing' "${own_key[@]}" -tls1_2 -cipher 'eNULL:@SECLEVEL=0'
refused_by_weak 'TLS 1.1' 'protocol' "${own_key[@]}" -tls1_1 -cipher 'ALL:@SECLEVEL=0'
for name in self_signed wrong_host expired_server other/server cn_only; do
    fake "$name"
    OPENSSL_CONF=$work/weak.cnf kmip_is "a certificate that is $name" 3 query
    says 'it is said' '"ConnectError".*certificate'
done
