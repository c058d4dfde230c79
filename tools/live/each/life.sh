# shellcheck shell=bash
# needs: server
# The life of a key.
patience=120 client_run life "$work" >"$said" 2>&1
verdict 'made, active, read, used, named anew, revoked, destroyed, gone'
{
    openssl rsa -RSAPublicKey_in -inform DER -in "$work/public.der" -pubout -out "$work/public.pem" &&
        printf hello | openssl dgst -sha256 -verify "$work/public.pem" -signature "$work/signature"
} >"$said" 2>&1
verdict 'openssl verifies the signature with the public key'
