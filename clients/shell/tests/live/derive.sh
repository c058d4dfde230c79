# shellcheck shell=bash disable=SC2034,SC2154
# needs: server
# Keys derived by words: by a cipher, to what openssl encrypts, and of two objects, to what openssl makes of the bytes of both.
. "$here/day.sh"
secret=$(openssl rand -hex 32) iv=$(openssl rand -hex 16)
head -c 23 /dev/urandom >plain
data=$(hex_of plain)
call_is 'a key to derive from' 0 register symmetric "$secret" format=Raw algorithm=AES length=256 usage=DeriveKey
base=$(jq -r .answer.unique_identifier "$said")
call_is 'it is made active' 0 activate "$base"
derived() { # WHAT HEX WORD..: a key of 256 bits is derived by these words, and has these bytes
    call_is "$1" 0 derive-key "$base" "${@:3}" algorithm=AES length=256
    call_is 'it is got' 0 get "$(jq -r .answer.unique_identifier "$said")"
    [[ $(jq -r .answer.cryptographic_object.SymmetricKey.key_block.key_value.key_material.Bytes "$said") == "${2^^}" ]]
    verdict "$1: with the bytes that openssl makes"
}
openssl enc -aes-256-cbc -K "$secret" -iv "$iv" -in plain -out sealed 2>"$said"
derived 'by AES in the mode CBC, padded' "$(hex_of sealed)" \
    ENCRYPT cipher=AES mode=CBC padding=PKCS5 iv="$iv" data="$data" usage=Encrypt,Decrypt
operates 'secret data' Register "$(named ObjectType SecretData)" \
    "$(items TemplateAttribute "$(attribute 'Cryptographic Usage Mask' "$(number AttributeValue 512)")")" \
    "$(items SecretData "$(named SecretDataType Seed)" \
        "$(items KeyBlock "$(named KeyFormatType Opaque)" "$(items KeyValue "$(octets KeyMaterial "$data")")")")"
other=$(value UniqueIdentifier)
openssl enc -aes-256-ecb -K "$secret" -in plain -out sealed 2>"$said"
derived 'by AES, of the data of a second object' "$(hex_of sealed)" ENCRYPT also="$other" cipher=AES mode=ECB padding=PKCS5
hkdf=$(openssl kdf -keylen 32 -kdfopt digest:SHA256 -kdfopt "hexkey:$secret" -kdfopt "hexinfo:$data" -kdfopt hexsalt:00 HKDF)
derived 'by HMAC, of the data of a second object' "${hkdf//:/}" HMAC also="$other" hash=SHA_256 salt=00
