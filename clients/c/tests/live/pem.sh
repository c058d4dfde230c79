# shellcheck shell=bash
# Keys and certificates as PEM, which openssl reads.
fake objects
export KMIP_PEM=1
reads() { # OBJECT COMMAND..: openssl reads what was written, and it is the object
    local object=$1
    shift
    client_run call get "$object" >"$work/got.pem" 2>"$said" &&
        openssl "$@" -in "$work/got.pem" -outform DER -out "$work/got.der" 2>>"$said" &&
        cmp "$work/got.der" "$certs/objects/$object.der" >>"$said" 2>&1
    verdict "openssl $1 reads $object"
}
reads PublicKey.PKCS1 rsa -RSAPublicKey_in -RSAPublicKey_out
reads PublicKey.X509 pkey -pubin -pubout
reads PrivateKey.PKCS1 rsa -traditional
reads PrivateKey.PKCS8 pkcs8 -topk8 -nocrypt
reads PrivateKey.ECPrivateKey ec
reads Certificate.X509 x509
[[ $(tail -c 1 "$work/got.pem" | od -An -tx1) == *0a && -n $(tail -1 "$work/got.pem") ]]
verdict 'it ends with a line, and no other'
call_is 'a key that is raw' 1 get SymmetricKey.Raw
says 'has no PEM form' 'MissingValue'
call_is 'a key that is wrapped' 1 get wrapped
says 'has none either' 'MissingValue'
