# shellcheck shell=bash disable=SC2034,SC2154
# needs: server
# The day of an authority whose key is of RSA: what it signs is verified by openssl.
. "$here/day.sh"
name="rsa of $client"
answer() { # PATH
    jq -r ".answer.$1" "$said"
}
call_is 'a pair is made' 0 create-rsa 2048 "$name" "$name, public"
private=$(answer private_key) public=$(answer public_key)
call_is 'a key that is not active does not sign' 1 sign "$private" 00
call_is 'it is made active' 0 activate "$private"
client_run call pem "$public" 2>"$said" | openssl rsa -RSAPublicKey_in -pubout -out authority.pem 2>>"$said"
verdict 'openssl reads the public key as PEM'

sign_by() { # FILE
    client_run call sign "$private" "$(hex_of "$1")" >"$said" 2>&1 && signature=$(answer signature_data)
}
openssl req -x509 -new -newkey rsa:2048 -nodes -keyout thrown.key -subj "/CN=$name" -out thrown.crt 2>"$said"
issue authority "/CN=$name" thrown
openssl verify -CAfile authority.crt -check_ss_sig authority.crt >"$said" 2>&1
verdict 'openssl verifies the certificate of the authority'
openssl genpkey -algorithm EC -pkeyopt ec_paramgen_curve:P-256 2>"$said" | openssl pkey -pubout -out leaf.pem 2>>"$said"
issue leaf '/CN=a leaf' thrown
openssl verify -CAfile authority.crt leaf.crt >"$said" 2>&1
verdict 'openssl verifies that of the leaf'
call_is 'a signature by PSS with SHA-384' 0 sign "$private" "$(hex_of leaf.tbs)" hash=SHA384 padding=PSS
bytes_of "$(answer signature_data)" >pss
openssl dgst -sha384 -sigopt rsa_padding_mode:pss -verify authority.pem -signature pss leaf.tbs >"$said" 2>&1
verdict 'openssl verifies it'
call_is 'without its padding it is another one' 0 sign "$private" "$(hex_of leaf.tbs)" hash=SHA384
[[ $(answer signature_data) != "$(hex_of pss)" ]]
verdict 'as it has to be'

call_is 'the certificate is registered' 0 register-certificate authority.crt "name=$name, certificate" usage=Verify
kept=$(answer unique_identifier)
is_kept "$kept" authority.crt
by_four=(locate where "name=$name" type=PrivateKey algorithm=RSA)
call_is 'the key is found by its name, type, algorithm and state' 0 "${by_four[@]}" state=Active
[[ $(answer 'unique_identifiers[]') == "$private" ]]
verdict 'and nothing else'
call_is 'the key is revoked, with a reason and a message' 0 revoke "$private" reason=KeyCompromise message='the disk is gone'
call_is 'it is not found among the active ones' 0 "${by_four[@]}" state=Active
[[ -z $(answer 'unique_identifiers[]') ]]
verdict 'where nothing is'
call_is 'but among those that are compromised' 0 "${by_four[@]}" state=Compromised
[[ $(answer 'unique_identifiers[]') == "$private" ]]
verdict 'where it is'
call_is 'it does not sign any more' 1 sign "$private" 00
call_is 'the key is destroyed' 0 destroy "$private"
call_is 'and gone' 1 attributes "$private"
says 'which is said' ItemNotFound
