# shellcheck shell=bash disable=SC2154
# A server that keeps Links and makes salts as long as the digest; and one that does wrong.
command -v openssl >/dev/null || return
build_test program
signer
configure
uri=kmip:id=priv
run_program uses "$uri"
run_threads "$uri" 2
does 'the public key is found by its Link' openssl req -new -x509 -key "$uri" -days 30 -out ca.pem
does 'openssl verifies the certificate' "${stock[@]}" verify -CAfile ca.pem -check_ss_sig ca.pem
does 'PSS with a salt as long as the digest' openssl req -new -x509 -key "$uri" -sigopt rsa_padding_mode:pss \
    -sigopt rsa_pss_saltlen:digest -sha384 -out pss.pem
does 'openssl verifies the certificate' "${stock[@]}" verify -CAfile pss.pem -check_ss_sig pss.pem
! grep -q 'Get priv' "$signed"
verdict 'the private key was never asked for'
signer private
configure
refuses 'a Link to a private key, and why' 'the object priv is a PrivateKey, and no PublicKey' \
    openssl req -new -x509 -key "$uri" -out never.pem
! grep -q '^Get ' "$signed"
verdict 'nothing was asked for'
signer lies
configure
refuses 'a private key that is handed out for the public one, and why' 'gave out the object pub as no PublicKey' \
    openssl req -new -x509 -key "$uri" -out never.pem
signer signature
configure
refuses 'a signature that is none, and why' 'signature does not verify.*by the key priv' \
    openssl dgst -sha256 -sign "$uri" -out never /dev/null
[[ ! -s never ]]
verdict 'it is not given out'

# A key of the program's own that is encrypted.
signer
"${stock[@]}" pkey -in "$key" -aes256 -passout pass:secret -out encrypted.key
printf 'secret\n' >secret
key=$work/encrypted.key configure "passphrase_file = $work/secret"
does 'an encrypted key, with its passphrase in a file' openssl dgst -sha256 -sign "$uri" -out made /dev/null
key=$work/encrypted.key configure
refuses 'and without, and why' 'no passphrase is given' openssl dgst -sha256 -sign "$uri" -out never /dev/null

# Files that hold a URI, beside those of other keys.
signer
configure
write_uri "$uri" uri.key
"${stock[@]}" req -new -x509 -newkey rsa:2048 -nodes -subj /CN=plain -keyout plain.key -out plain.pem 2>"$said"
"${stock[@]}" ecparam -name prime256v1 -genkey -noout -out ec.key
cat plain.pem plain.key >certificate_and_key
cat plain.pem uri.key >certificate_and_uri
cat ec.key uri.key >two_keys
"${stock[@]}" rsa -in plain.key -traditional -out traditional.key 2>"$said"
run_program bundle uri.key plain.key ec.key traditional.key certificate_and_key certificate_and_uri two_keys
# (the command openssl does not take such files: its loader asks no other provider)
write_uri 'kmip:' wrong.key
run_program wrong wrong.key 'it is kmip:NAME-OR-ID'
write_uri 'kmip:id=nobody' nobody.key
run_program wrong nobody.key 'ItemNotFound'
printf '%s\n' '-----BEGIN KMIP KEY URI-----' '!' '-----END KMIP KEY URI-----' >digits.key
run_program wrong digits.key 'no base64 of a URI'
