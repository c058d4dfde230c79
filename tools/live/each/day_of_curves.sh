# shellcheck shell=bash disable=SC2034,SC2154
# The day of an authority whose key is on the curve P-256, on a fake server that does what KMIP 1.2 says, as PyKMIP does not.
. "$here/day.sh"
fake curves
build_operate
name="curve of $client"
shared=$(items CommonTemplateAttribute \
    "$(attribute 'Cryptographic Algorithm' "$(named AttributeValue ECDSA)")" \
    "$(attribute 'Cryptographic Length' "$(number AttributeValue 256)")" \
    "$(attribute 'Cryptographic Domain Parameters' "$(items AttributeValue "$(named RecommendedCurve P_256)")")")
usage() { # NUMBER
    attribute 'Cryptographic Usage Mask' "$(number AttributeValue "$1")"
}
operates 'a pair is made' CreateKeyPair "$shared" \
    "$(items PrivateKeyTemplateAttribute "$(name_of "$name")" "$(usage 1)")" \
    "$(items PublicKeyTemplateAttribute "$(name_of "$name, public")" "$(usage 2)")"
private=$(value PrivateKeyUniqueIdentifier) public=$(value PublicKeyUniqueIdentifier)
asked=(Sign "$(text UniqueIdentifier "$private")"
    "$(items CryptographicParameters "$(named DigitalSignatureAlgorithm ECDSAWithSHA256)")")
refused 'a key that is not active does not sign, and why' 'PermissionDenied' "${asked[@]}" "$(octets Data 00)"
call_is 'the private key is made active' 0 activate "$private"
call_is 'and the public one' 0 activate "$public"
call_is 'the attributes are got' 0 attributes "$private"
says 'which has its curve' 'P[_-]?256'
call_is 'the private key is not given out' 1 get "$private"
client_run call pem "$public" >authority.pem 2>"$said"
verdict 'the public key as PEM'
openssl pkey -pubin -in authority.pem -text -noout >"$said" 2>&1
says 'which openssl reads' 'ASN1 OID: prime256v1'

sign_by() { # FILE
    operate "${asked[@]}" "$(octets Data "$(hex_of "$1")")" && signature=$(value SignatureData)
}
openssl req -x509 -new -newkey ec -pkeyopt ec_paramgen_curve:P-256 -nodes -keyout thrown.key -subj "/CN=$name" -out thrown.crt 2>"$said"
issue authority "/CN=$name" thrown
openssl verify -CAfile authority.crt -check_ss_sig authority.crt >"$said" 2>&1
verdict 'openssl verifies the certificate of the authority'
openssl genpkey -algorithm EC -pkeyopt ec_paramgen_curve:P-256 2>"$said" | openssl pkey -pubout -out leaf.pem 2>>"$said"
issue leaf '/CN=a leaf' thrown
openssl verify -CAfile authority.crt leaf.crt >"$said" 2>&1
verdict 'openssl verifies that of the leaf'
verify=(SignatureVerify "$(text UniqueIdentifier "$public")" "${asked[2]}" "$(octets SignatureData "$signature")")
operates 'the server verifies the signature' "${verify[@]}" "$(octets Data "$(hex_of leaf.tbs)")"
[[ $(value ValidityIndicator) == Valid ]]
verdict 'which is valid'
operates 'and one of other data' "${verify[@]}" "$(octets Data 00)"
[[ $(value ValidityIndicator) == Invalid ]]
verdict 'which is not'
refused 'parameters that are none of ECDSA are refused, and why' 'InvalidField' "${asked[@]:0:2}" \
    "$(items CryptographicParameters "$(named HashingAlgorithm SHA_256)" "$(named PaddingMethod PSS)")" "$(octets Data 00)"

call_is 'the certificate is registered' 0 register-certificate authority.crt "name=$name, certificate" usage=Verify
kept=$(jq -r .answer.unique_identifier "$said")
is_kept "$kept" authority.crt
found() { # WHAT WORD.. -- IDENTIFIER..
    call_is "$1" 0 locate "${@:2}"
    jq -r '.answer.unique_identifiers[]' "$said" >found
}
found 'the key is found by its name, type and state' where "name=$name" type=PrivateKey state=Active
[[ $(<found) == "$private" ]]
verdict 'and nothing else'
call_is 'the key is revoked' 0 revoke "$private" reason=KeyCompromise message='the disk is gone'
refused 'it does not sign any more' 'PermissionDenied' "${asked[@]}" "$(octets Data 00)"
found 'it is not found among the active ones' where "name=$name" state=Active
[[ ! -s found ]]
verdict 'where nothing is'
call_is 'nor destroyed before it is revoked: the public key' 1 destroy "$public"
call_is 'the key is destroyed' 0 destroy "$private"
call_is 'and gone' 1 attributes "$private"
says 'which is said' ItemNotFound
