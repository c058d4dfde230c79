# shellcheck shell=bash
# Keys, certificates and secrets that openssl wrote: registered, and got again as PEM, which openssl reads.
if [[ $client == openssl ]]; then return; fi
fake keeper
export LC_ALL=C
openssl dsaparam -out dsa.parameters 1024 2>"$said"
for kind in 'rsa:genrsa 2048' 'rsa1:genrsa -traditional 2048' 'ec:ecparam -name prime256v1 -genkey' \
    'p384:genpkey -algorithm EC -pkeyopt ec_paramgen_curve:P-384' 'dsa:gendsa dsa.parameters' 'ed:genpkey -algorithm ED25519'; do
    read -ra words <<<"${kind#*:}"
    openssl "${words[@]}" >"${kind%%:*}.key" 2>"$said" && openssl pkey -in "${kind%%:*}.key" -pubout >"${kind%%:*}.pub" 2>"$said"
done
registered() { # WHAT CALL FILE WORD..: it is, and its identifier is in `id`
    call_is "$2 $1" 0 "${@:2}"
    id=$(jq -r .answer.unique_identifier "$said" 2>/dev/null)
}
same() { # WHAT PEM FLAG..: what is got as PEM is this key
    client_run call pem "$id" >got.pem 2>"$said" &&
        [[ $(openssl pkey "${@:3}" -in got.pem -pubout 2>>"$said") == "$(<"$2")" ]]
    verdict "$1"
}
for kind in rsa rsa1 ec p384 dsa; do
    registered "of $kind" register-private "$kind.key" "name=$kind" usage=Sign
    same "and got as PEM: the private key $kind" "$kind.pub"
    registered "of $kind" register-public "$kind.pub"
    same "and got as PEM: the public key $kind" "$kind.pub" -pubin
done
openssl rsa -in rsa.key -RSAPublicKey_out -out rsa1.pub1 2>"$said"
registered 'of PKCS#1' register-public rsa1.pub1
client_run call pem "$id" 2>"$said" | openssl rsa -RSAPublicKey_in -pubout 2>>"$said" | cmp - rsa.pub >>"$said" 2>&1
verdict 'and got as PEM: the public key in PKCS#1'
registered 'of its own' register-certificate "$certs/client.pem" name=client
client_run call pem "$id" 2>"$said" | openssl x509 -outform DER 2>>"$said" | cmp - "$certs/objects/Certificate.X509.der" >>"$said" 2>&1
verdict 'and got as PEM: the certificate'
printf 'open sesame' >secret
registered 'a password' register-secret secret name=door
call_is 'a secret is got as what the server has' 0 get "$id"
says 'which is its bytes' 6F70656E20736573616D65
call_is 'and has no PEM form' 1 pem "$id"
says 'which is said' MissingValue
registered 'a seed' register-secret secret kind=Seed
# What is refused, with nothing sent: `nobody` listens where it would go.
refused() { # WHAT WORD..
    call_is "$1: refused" 2 "${@:2}"
    says_not 'and no key is shown' 'PRIVATE KEY-----|MII|^[A-Za-z0-9+/]{60}'
}
openssl pkcs8 -topk8 -passout pass:x -in rsa.key -out closed.key 2>"$said"
openssl rsa -traditional -aes128 -passout pass:x -in rsa.key -out closed1.key 2>"$said"
cat rsa.key ec.key >two.key
sed 's/^M/?/' rsa.key >torn.key
refused 'a public key as a private one' register-private rsa.pub
refused 'a private key as a public one' register-public rsa.key
refused 'a private key as a certificate' register-certificate rsa.key
refused 'a certificate as a public key' register-public "$certs/client.pem"
refused 'an encrypted key' register-private closed.key
refused 'an encrypted key of PKCS#1' register-private closed1.key
refused 'two keys in one file' register-private two.key
refused 'a key that is torn' register-private torn.key
refused 'a key of an algorithm that KMIP 1.2 has not' register-private ed.key
refused 'a file that is not there' register-private none.key
refused 'a use that is none' register-private rsa.key usage=Signing
refused 'a secret of another kind' register-secret secret kind=Seeds
refused 'PEM as the bytes of a key' register private "$(od -An -v -tx1 rsa.key | tr -d ' \n')" format=PKCS8 algorithm=RSA length=2048
says 'it is said to be PEM' PEM
fake transparent
for kind in RSA EC; do
    client_run call pem "PrivateKey.$kind" >private.pem 2>"$said" && openssl pkey -in private.pem -check -noout >"$said" 2>&1
    verdict "openssl reads a private key of $kind whose parts are told"
    client_run call pem "PublicKey.$kind" >public.pem 2>"$said"
    if [[ $kind == RSA ]]; then openssl rsa -RSAPublicKey_in -in public.pem -pubout; else openssl pkey -pubin -in public.pem; fi >public 2>>"$said" &&
        openssl pkey -in private.pem -pubout 2>>"$said" | cmp - public >>"$said" 2>&1
    verdict 'and the public one, which is its own'
done
call_is 'an HMAC key is got as what the server has' 0 get HMAC
says 'which is the tree of its payload' '"tag": ?"KeyBlock".*"736563726574"'
call_is 'and has no PEM form' 1 pem HMAC
call_is 'an HMAC key in a format' 0 get HMAC format=Raw
says 'is got so, too' '"tag": ?"KeyBlock".*"736563726574"'
call_is 'a certificate request, of a later KMIP' 0 get request
says 'is got as what the server has' '"tag": ?"CertificateRequest".*"72657175657374"'
call_is 'a key without its value' 0 get 'no value'
says 'is got as what the server has' '"tag": ?"KeyFormatType".*"Raw".*"tag": ?"CryptographicAlgorithm".*"AES"'
call_is 'and has no PEM form' 1 pem 'no value'
call_is 'a key of EC that was to be wrapped, and is not' 1 get PrivateKey.EC wrap=k
says_not 'is not shown' KeyMaterial
call_is 'attributes of no table are what the server has' 0 attributes k
says 'which is the tree of its payload' '"tag": ?"AttributeName".*"Cryptographic Algorithm".*"ECDSA"'
call_is 'such an attribute by its name' 0 attributes k 'Cryptographic Algorithm'
says 'is the same' '"tag": ?"AttributeName".*"Cryptographic Algorithm".*"ECDSA"'
call_is 'an attribute that is in a table' 0 attributes elsewhere
says 'is no tree' '"attributes": ?\[\{"name": ?"x-of ours"'
call_is 'an answer about another object' 3 get elsewhere
says 'is said to be one' 'answer for another object'
call_is 'attributes of another object' 3 attributes moved
call_is 'an answer about no object' 3 get nameless
says_not 'is not shown' KeyMaterial
