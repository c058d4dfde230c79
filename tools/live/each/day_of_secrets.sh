# shellcheck shell=bash disable=SC2034,SC2154
# needs: server
# The day of a service that encrypts and authenticates: what the server answers is what openssl does with the same keys.
. "$here/day.sh"
build_operate
name="secrets of $client"
nonce=000102030405060708090A0B0C0D0E0F
printf 'what nobody else is to read' >plain
made() { # WHAT WORD..: a key, whose identifier is $id, and whose bytes are $secret
    call_is "$1 is made" 0 "${@:2}"
    id=$(jq -r .answer.unique_identifier "$said")
    call_is 'its bytes are got' 0 get "$id"
    secret=$(jq -r .answer.cryptographic_object.SymmetricKey.key_block.key_value.key_material.Bytes "$said")
}
cipher() { # OPERATION FILE: sets `asked`, the words of the operation
    asked=("$1" "$(text UniqueIdentifier "$id")" "$(items CryptographicParameters "$(named BlockCipherMode CBC)" \
        "$(named PaddingMethod PKCS5)" "$(named CryptographicAlgorithm AES)")" "$(octets Data "$(hex_of "$2")")" \
        "$(octets IVCounterNonce "$nonce")")
}
made 'an AES key' create-aes 256 "$name"
cipher Encrypt plain
refused 'a key that is not active does not encrypt, and why' 'Active state' "${asked[@]}"
call_is 'it is made active' 0 activate "$id"
operates 'the server encrypts' "${asked[@]}"
bytes_of "$(value Data)" >sealed
openssl enc -aes-256-cbc -K "$secret" -iv "$nonce" -in plain 2>"$said" | cmp - sealed >>"$said" 2>&1
verdict 'to the bytes that openssl makes'
head -c 5000 /dev/urandom >long
openssl enc -aes-256-cbc -K "$secret" -iv "$nonce" -in long -out long.sealed 2>"$said"
cipher Decrypt long.sealed
operates 'the server decrypts what openssl encrypted' "${asked[@]}"
[[ $(value Data | tr A-F a-f) == "$(hex_of long)" ]]
verdict 'to what it was'
head -c 31 sealed >torn
cipher Decrypt torn
refused 'half a block is not decrypted' ServerError "${asked[@]}"

mac() { # PARAMETER..
    operates 'the server makes a code' MAC "$(text UniqueIdentifier "$id")" "$(items CryptographicParameters "$@")" \
        "$(octets Data "$(hex_of plain)")"
    value MACData | tr A-F a-f >code
}
secret=$(openssl rand -hex 32)
operates 'an HMAC key is registered' Register "$(named ObjectType SymmetricKey)" "$(items TemplateAttribute \
    "$(attribute 'Cryptographic Usage Mask' "$(number AttributeValue 128)")" "$(name_of "$name, HMAC")")" \
    "$(items SymmetricKey "$(items KeyBlock "$(named KeyFormatType Raw)" \
        "$(items KeyValue "$(octets KeyMaterial "$secret")")" "$(named CryptographicAlgorithm HMAC_SHA256)" \
        "$(number CryptographicLength 256)")")"
id=$(value UniqueIdentifier)
call_is 'it is made active' 0 activate "$id"
mac "$(named CryptographicAlgorithm HMAC_SHA256)"
[[ $(<code) == "$(openssl dgst -sha256 -mac HMAC -macopt "hexkey:$secret" -r plain | cut -d' ' -f1)" ]]
verdict 'which is that of openssl'
made 'an AES key for codes' create AES 128 "$name, CMAC" usage=MacGenerate
call_is 'it is made active' 0 activate "$id"
mac "$(named CryptographicAlgorithm AES)"
[[ $(<code) == "$(openssl mac -cipher AES-128-CBC -macopt "hexkey:$secret" -in plain CMAC | tr A-F a-f)" ]]
verdict 'which is that of openssl'
call_is 'a key that is in use is not destroyed' 1 destroy "$id"
call_is 'it is revoked' 0 revoke "$id"
call_is 'and then destroyed' 0 destroy "$id"
