# shellcheck shell=bash disable=SC2154
# needs: server
# An authority of certificates whose key is on the server: what it signs is verified by openssl without the provider.
make_key 'an authority' || give_up 'no key'
uri="kmip:id=$private;public-id=$public"
configure 'pss_salt = max'
does 'a certificate that signs itself, by names' \
    openssl req -new -x509 -key 'kmip:name=an authority;public-name=an authority, public' -days 30 -out ca.pem
does 'openssl verifies it' "${stock[@]}" verify -CAfile ca.pem -check_ss_sig ca.pem
does 'a request' openssl req -new -key "$uri" -sha384 -subj /CN=request -out ca.csr
does 'openssl verifies it' "${stock[@]}" req -in ca.csr -verify -noout
does 'a key of another provider is made beside it' \
    openssl req -new -newkey rsa:2048 -nodes -keyout leaf.key -subj /CN=localhost -out leaf.csr
sign=(openssl x509 -req -in leaf.csr -CA ca.pem -CAcreateserial -extfile "$OPENSSL_CONF" -extensions leaf -days 20)
does 'a leaf' "${sign[@]}" -CAkey "kmip:id=$private;public-file=ca.pem" -sha512 -out leaf.pem
does 'openssl verifies it' "${stock[@]}" verify -CAfile ca.pem leaf.pem
does 'a leaf, signed with PSS' "${sign[@]}" -CAkey "$uri" -sha256 -sigopt rsa_padding_mode:pss -out pss.pem
does 'openssl verifies it' "${stock[@]}" verify -CAfile ca.pem pss.pem
refuses 'a salt that this server does not make, and why' 'a PSS salt of 32 bytes: by pss_salt the server makes 222' \
    "${sign[@]}" -CAkey "$uri" -sigopt rsa_padding_mode:pss -sigopt rsa_pss_saltlen:32 -out never.pem
# The other way round: the setting is not what the server does.
configure 'pss_salt = digest'
refuses 'a wrong pss_salt is seen in the signature, and why' 'its PSS salt has not 32 bytes; set pss_salt' \
    "${sign[@]}" -CAkey "$uri" -sha256 -sigopt rsa_padding_mode:pss -out never.pem
configure 'pss_salt = max'

mkdir demo && : >demo/index.txt && echo 01 >demo/serial && echo 01 >demo/crlnumber
cp "$OPENSSL_CONF" ca.cnf
cat >>ca.cnf <<CNF
[ca]
default_ca = it
[it]
database = demo/index.txt
new_certs_dir = demo
serial = demo/serial
crlnumber = demo/crlnumber
certificate = ca.pem
private_key = $uri
default_md = sha256
default_days = 10
default_crl_days = 5
policy = any
x509_extensions = leaf
[any]
commonName = supplied
CNF
does 'openssl ca' env OPENSSL_CONF=ca.cnf openssl ca -batch -in leaf.csr -out leafca.pem -notext
does 'openssl verifies what it signed' "${stock[@]}" verify -CAfile ca.pem leafca.pem
does 'which is revoked' env OPENSSL_CONF=ca.cnf openssl ca -revoke leafca.pem
does 'a revocation list' env OPENSSL_CONF=ca.cnf openssl ca -gencrl -out crl.pem
does 'openssl verifies it' "${stock[@]}" crl -in crl.pem -CAfile ca.pem -noout
refuses 'and by it refuses the leaf' 'certificate revoked' \
    "${stock[@]}" verify -CAfile ca.pem -CRLfile crl.pem -crl_check leafca.pem

echo 'hello cms' >text
message=(-in text -signer ca.pem -inkey "$uri")
does 'CMS' openssl cms -sign "${message[@]}" -text -md sha256 -out text.cms
does 'openssl verifies it' "${stock[@]}" cms -verify -in text.cms -CAfile ca.pem -purpose any -text
does 'CMS with PSS' openssl cms -sign "${message[@]}" -md sha384 -keyopt rsa_padding_mode:pss -out pss.cms
does 'openssl verifies it' "${stock[@]}" cms -verify -in pss.cms -CAfile ca.pem -purpose any
refuses 'CMS without attributes, which signs a digest alone, and why' 'Sign of KMIP 1.2 takes the data itself' \
    openssl cms -sign -noattr "${message[@]}" -md sha256 -out never.cms
does 'S/MIME' openssl smime -sign "${message[@]}" -out text.smime
does 'openssl verifies it' "${stock[@]}" smime -verify -in text.smime -CAfile ca.pem -purpose any
does 'OCSP: a request' openssl ocsp -issuer ca.pem -serial 0x01 -no_nonce -reqout request.der
does 'OCSP: a response' openssl ocsp -index demo/index.txt -CA ca.pem -rsigner ca.pem -rkey "$uri" -reqin request.der \
    -respout response.der
does 'openssl verifies it' "${stock[@]}" ocsp -respin response.der -CAfile ca.pem -issuer ca.pem -serial 0x01 -no_nonce
says 'and reads that the leaf is revoked' '0x01: revoked'

does 'dgst' openssl dgst -sha256 -sign "$uri" -out by_dgst text
"${stock[@]}" x509 -in ca.pem -pubkey -noout >ca.pub
does 'openssl verifies it' "${stock[@]}" dgst -sha256 -verify ca.pub -signature by_dgst text
does 'pkeyutl over the data' openssl pkeyutl -sign -rawin -digest sha256 -inkey "$uri" -in text -out by_pkeyutl
does 'which is the same signature' cmp by_dgst by_pkeyutl
