# shellcheck shell=bash
# needs: server
# A new pair as PEM, which openssl reads.
pair=$(by_shell create-rsa 2048 "pem $client" "pem $client, public")
export KMIP_PEM=1
client_run call get "$(jq -r .answer.public_key <<<"$pair")" >"$work/public.pem" 2>"$said" &&
    openssl rsa -RSAPublicKey_in -in "$work/public.pem" -noout >"$said" 2>&1
verdict 'openssl reads the public key'
client_run call get "$(jq -r .answer.private_key <<<"$pair")" >"$work/private.pem" 2>"$said" &&
    openssl pkey -in "$work/private.pem" -check -noout >"$said" 2>&1
verdict 'openssl reads the private key'
[[ $(openssl pkey -in "$work/private.pem" -pubout) == "$(openssl rsa -RSAPublicKey_in -in "$work/public.pem" -pubout 2>"$said")" ]]
verdict 'the two are one pair'
