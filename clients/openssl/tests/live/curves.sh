# shellcheck shell=bash disable=SC2034,SC2154
# Keys on curves: found by a Link, used by a program, for certificates, messages and TLS, on a server that says no word of RSA.
command -v openssl >/dev/null || return
look_for_sanitizers
build_provider with_sanitizers ${sanitized[@]+"${sanitized[@]}"}
build_test program ${sanitized[@]+"${sanitized[@]}"}
uri=kmip:id=priv
curve() { # CURVE [WRONG]: from here on the signer's key is on this curve
    signer_key=$work/$1.key
    "${stock[@]}" genpkey -algorithm EC -pkeyopt "ec_paramgen_curve:$1" -out "$signer_key" 2>"$said" || give_up 'no key'
    signer "${@:2}"
    configure
}
curve P-256
run_program uses "$uri"
run_threads "$uri" 2
write_uri "$uri" uri.key
run_program bundle uri.key "$work/P-256.key"
unset provider
configure
for name in P-256 P-384 P-521 P-224 secp256k1 brainpoolP256r1; do
    curve "$name"
    does "$name: the public key" openssl pkey -pubin -in "$uri" -pubout -out got.pub
    "${stock[@]}" pkey -in "$signer_key" -pubout -out its.pub
    does "$name: is that of the private one" cmp got.pub its.pub
    for hash in sha224 sha256 sha384 sha512; do
        does "$name: a signature with $hash" openssl dgst "-$hash" -sign "$uri" -out made got.pub
        does "$name: openssl verifies it" "${stock[@]}" dgst "-$hash" -verify its.pub -signature made got.pub
    done
    does "$name: a certificate" openssl req -new -x509 -key "$uri" -days 30 -subj /CN=localhost \
        -addext subjectAltName=DNS:localhost -out tls.pem
    does "$name: openssl verifies it" "${stock[@]}" verify -CAfile tls.pem -check_ss_sig tls.pem
    does "$name: a request" openssl req -new -key "$uri" -sha384 -subj /CN=request -out its.csr
    does "$name: openssl verifies it" "${stock[@]}" req -in its.csr -verify -noout
    does "$name: CMS" openssl cms -sign -in its.csr -signer tls.pem -inkey "$uri" -md sha256 -out its.cms
    does "$name: openssl verifies it" "${stock[@]}" cms -verify -in its.cms -CAfile tls.pem -purpose any -out got.csr
    ! grep -q 'Get priv' "$signed"
    verdict "$name: the private key was never asked for"
    case $name in P-???) [[ $name == P-224 ]] || serve "$name: s_server" -key "$uri" ;; esac
done
"${stock[@]}" rand -out large 3000000
does 'a signature over 3 MB' openssl dgst -sha256 -sign "$uri" -out made large
refuses 'another hash, and why' 'the hash sha1; SHA224, SHA256' openssl dgst -sha1 -sign "$uri" -out never large
curve P-256 signature
refuses 'a signature that is none, and why' 'signature does not verify.*by the key priv' \
    openssl dgst -sha256 -sign "$uri" -out never its.pub
[[ ! -s never ]]
verdict 'it is not given out'
curve P-256 rsa
refuses 'a private key of RSA with a public one on a curve, and why' 'the private key priv is one of RSA, and the public one is not' \
    openssl dgst -sha256 -sign "$uri" -out never its.pub
