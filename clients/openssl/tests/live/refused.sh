# shellcheck shell=bash disable=SC2154
# needs: server
# Objects that are other than a URI says, and servers that are not there.
make_key 'the first' || give_up 'no key'
first=$private first_public=$public
make_key 'the second' || give_up 'no key'
secret=$(by_shell create-aes 256 'an AES key' | jq -r .answer.unique_identifier)
configure 'pss_salt = max'
sign() { # URI
    printf '%s\n' openssl dgst -sha256 -sign "$1" -out made text
}
try() { # WHAT REGEX URI
    local words
    mapfile -t words < <(sign "$3")
    refuses "$1" "$2" "${words[@]}"
}
echo hello >text
mapfile -t words < <(sign "kmip:id=$first;public-id=$first_public")
does 'a signature' "${words[@]}"
rm -f made
try 'another key for its public key, and why' 'does not verify.*is the public key that was found for it another' \
    "kmip:id=$first;public-id=$public"
[[ ! -s made ]]
verdict 'no signature is written'
try 'a private key for its public key, and why' "the object $private is a PrivateKey, and no PublicKey" \
    "kmip:id=$first;public-id=$private"
try 'no public key told, and why' 'has no link to its public key: add ;public-id=' "kmip:id=$first"
try 'a symmetric key, and why' "the object $secret is a SymmetricKey, and no" "kmip:id=$secret"
try 'a public key, and why' "the object $public is a PublicKey, and no private key" "kmip:id=$public"
try 'no such identifier, and why' 'Could not locate object: nowhere' 'kmip:id=nowhere'
try 'no such name, and why' 'no private key has the name nowhere' 'kmip:name=nowhere'
try 'no such name of a public key, and why' 'no PublicKey has the name nowhere' "kmip:id=$first;public-name=nowhere"
try 'no such file, and why' '/nowhere cannot be read' "kmip:id=$first;public-file=/nowhere"
make_key 'the second' || give_up 'no key'
try 'a name that two keys have, and why' 'more than one PrivateKey has the name the second' 'kmip:the second'
made=$(by_shell create-rsa 2048 sleeping 'sleeping, public')
try 'a key that is not active, and why' 'must be in the Active state' \
    "kmip:id=$(jq -r .answer.private_key <<<"$made");public-id=$(jq -r .answer.public_key <<<"$made")"
does 'the public key alone' openssl pkey -pubin -in "kmip:id=$first_public" -pubout -out one.pem
does 'the public key of the private one' openssl pkey -pubin -in "kmip:id=$first;public-id=$first_public" -pubout -out two.pem
does 'which is the same' cmp one.pem two.pem
refuses 'the private key itself, and why' 'unsupported' openssl pkey -in "kmip:id=$first;public-id=$first_public" \
    -outform DER -out never.der
# (as PEM by its status alone: the command writes no error of this)
! openssl pkey -in "kmip:id=$first;public-id=$first_public" -out never.pem >"$said" 2>&1
verdict 'the private key as PEM'
[[ ! -s never.der && ! -s never.pem ]]
verdict 'nothing of it is written'

# A certificate that the server keeps.
openssl req -new -x509 -key "kmip:id=$first;public-id=$first_public" -days 30 -out own.pem
program=()
(. "$top/clients/c/tests/live/client.sh" && ${limit[@]+"${limit[@]}"} make -s -C "$top/clients/c" BUILT="$built" OUT="$work" CFLAGS=-O1 \
    "$work/libmetsuwan_tls.a") >"$said" 2>&1
cat >register.c <<'C'
#include "metsuwan_tls.h"
#include <stdio.h>
int main(int argc, char **argv) {
    char error[300], pem[8192];
    kmip_settings settings = kmip_defaults();
    if (argc != 7) return 2;
    settings.host = argv[1], settings.port = argv[2], settings.certificate = argv[3];
    settings.key = argv[4], settings.authority = argv[5];
    FILE *file = fopen(argv[6], "r");
    size_t length = file ? fread(pem, 1, sizeof pem, file) : 0;
    kmip_client *client = kmip_open(&settings, error, sizeof error);
    if (!client || !length) return 1;
    int status = kmip_register_certificate(client, pem, length, "own certificate", "Verify");
    const char *id = kmip_text(client, "UniqueIdentifier", NULL);
    puts(id ? id : kmip_line(client));
    kmip_close(client);
    return status;
}
C
gcc -std=c11 -I"$top/clients/c" -o register register.c libmetsuwan_tls.a "$built/libmetsuwan.a" -lssl -lcrypto -pthread \
    >"$said" 2>&1
verdict 'a program registers a certificate: built'
kept=$(./register "$host" "$port" "$certificate" "$key" "$authority" own.pem)
for uri in "kmip:id=$kept" 'kmip:name=own certificate' 'kmip:own%20certificate'; do
    does "the certificate by $uri" openssl x509 -in "$uri" -out got.pem
    does 'is the one that was registered' cmp own.pem got.pem
done
try 'which is no key, and why' "the object $kept is a Certificate, and no private key" "kmip:id=$kept"
refuses 'and a key is no certificate, and why' "the object $first is a PrivateKey, and no certificate" \
    openssl x509 -in "kmip:id=$first" -out never.pem

port=1 configure
try 'no server, and why' 'localhost:1: .*Connection refused' "kmip:id=$first;public-id=$first_public"
authority=$certs/other/ca.pem configure
try 'a server of another authority, and why' 'self-signed certificate in certificate chain' "kmip:id=$first;public-id=$first_public"
