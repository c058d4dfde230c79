# shellcheck shell=bash
# Whether it is known who the server is: whatever a context, its callbacks and openssl.cnf say, nothing is sent to a server
# that has no certificate, another name or another authority, or that encrypts nothing.
look_for_sanitizers
test_build known "${sanitized[@]}"
fake good
test_run known taken
# OpenSSL 3.0 says self-signed, and the one before it says self signed.
fake self_signed
test_run known 'signed certificate'
fake other/server
test_run known 'certificate: unable to'
fake expired_server
test_run known 'certificate has expired'
fake wrong_host
test_run known 'certificate: '

own_key=(-cert "$certs/server.pem" -key "$certs/server.key")
printf '%s\n' 'openssl_conf = a' '[a]' 'ssl_conf = b' '[b]' 'system_default = c' '[c]' \
    'CipherString = ALL:eNULL:aNULL:@SECLEVEL=0' 'MinProtocol = TLSv1' >weak.cnf

# With openssl.cnf that has the ciphers weak, and with such a context. The server reads no request.
refused_by_weak() { # WHAT REGEX TEXT WORD..
    tls_server "${@:4}"
    OPENSSL_CONF=$work/weak.cnf KMIP_TIMEOUT=$((3 * slack)) call_is "$1: no connection" 3 query
    says "$1: it is said" "\"ConnectError\".*$2"
    test_run known "weak:$3"
    stop_tls_server
    # (the tag and the type of a Request Message, 42 00 78 01)
    ! grep -qaP 'B\x00x\x01' "$work/tls_server"
    verdict "$1: nothing is sent"
}
refused_by_weak 'a server without a certificate' 'no certificate' 'no certificate' \
    -nocert -tls1_2 -cipher 'aNULL:@SECLEVEL=0'
refused_by_weak 'a server that encrypts nothing' 'nothing is encrypted' 'nothing is encrypted' "${own_key[@]}" -tls1_2 \
    -cipher 'eNULL:@SECLEVEL=0'
refused_by_weak 'TLS 1.1' 'protocol' 'protocol' "${own_key[@]}" -tls1_1 -cipher 'ALL:@SECLEVEL=0'
tls_server -nocert -psk 11111111111111111111111111111111 -tls1_2 -cipher 'PSK:@SECLEVEL=0'
test_run known 'weak:no certificate'
stop_tls_server

