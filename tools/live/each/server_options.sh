# shellcheck shell=bash
# needs: server
# Calls with options, against PyKMIP.
name="options, $client"
pair=$(by_shell create-rsa 2048 "$name" "$name, public")
private=$(jq -r .answer.private_key <<<"$pair")
public=$(jq -r .answer.public_key <<<"$pair")
by_shell activate "$private" >/dev/null
KMIP_PEM=1 by_shell get "$public" | openssl rsa -RSAPublicKey_in -pubout -out public.pem 2>"$said"
call_is 'a signature by PSS with SHA-384' 0 sign "$private" 68656C6C6F hash=SHA384 padding=PSS
sed 's/.*"signature_data": *"\([0-9A-F]*\)".*/\1/' "$said" >signature.hex
printf %b "$(sed 's/../\\x&/g' signature.hex)" >signature
printf hello | openssl dgst -sha384 -verify public.pem -sigopt rsa_padding_mode:pss -signature signature >"$said" 2>&1
verdict 'openssl verifies it'
call_is 'an option of another call' 2 sign "$private" 00 reason=KeyCompromise
call_is 'a value that is none' 2 sign "$private" 00 hash=SHA3
call_is 'an option that comes twice' 2 get "$private" format=PKCS1 format=PKCS8
call_is 'the private key in its format' 0 get "$private" format=PKCS8
call_is 'objects by their name and type' 0 locate where "name=$name" type=PrivateKey
says 'that is one' "\\[\"$private\"\\]"
call_is 'none by a state that they have not' 0 locate where "name=$name" state=Destroyed
says 'which is said' '"unique_identifiers": *\[\]'
call_is 'attributes by their names' 0 attributes "$private" State 'Cryptographic Length'
says 'the length is there' '"Integer": *2048'
says_not 'and no others' UniqueIdentifier
call_is 'a revocation with its reason' 0 revoke "$private" reason=KeyCompromise 'message=lost, and found' since=1700000000
call_is 'its state' 0 attributes "$private" State
says 'is that of the reason' Compromised
call_is 'an AES key of our own' 0 register symmetric 000102030405060708090A0B0C0D0E0F format=Raw algorithm=AES length=128 \
    usage=Encrypt,Decrypt "name=$name, registered"
made=$(grep -o '"unique_identifier": *"[0-9]*"' "$said" | grep -o '[0-9]*')
call_is 'it is given back' 0 get "$made"
says 'as it was' 000102030405060708090A0B0C0D0E0F
call_is 'another name' 0 attribute-modify "$made" 'name=50% = half' index=0
call_is 'it is found by that' 0 locate where 'name=50% = half'
says 'and is the one' "\"$made\""
call_is 'a key of another use' 0 create AES 256 "$name, new" usage=Encrypt
