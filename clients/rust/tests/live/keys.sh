# shellcheck shell=bash
# Encrypted keys, without a terminal; and an answer that cannot be written.
fake certificate
certificate=$certs/encrypted.pem key=$certs/encrypted.key
KMIP_PASSPHRASE='geheim & co' call_is 'an encrypted key' 0 query
says 'the server knows whose it is' alice
KMIP_PASSPHRASE=geheim call_is 'a wrong passphrase' 3 query
says 'which is said' 'encrypted, and this is not its passphrase'
call_is 'an encrypted key and no passphrase' 3 query
says 'which is said' 'encrypted, and no passphrase is given'
# At a terminal, too: nothing is asked.
client_program call
timeout $((20 * slack)) "$python" -c 'import pty, sys; pty.spawn(sys.argv[1:])' "${program[@]}" "$host" "$port" "$certificate" "$key" \
    "$authority" query >"$said" 2>&1 </dev/null
says 'at a terminal: it fails' 'no passphrase is given'
says_not 'at a terminal: no question' 'Enter'
certificate=$certs/client.pem key=$certs/client.key
client_run call query >/dev/full 2>"$said"
(($? == 4)) && ! grep -q panicked "$said"
verdict 'an answer that cannot be written has status 4'
