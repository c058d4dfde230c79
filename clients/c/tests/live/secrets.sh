# shellcheck shell=bash
# No password, passphrase or key is left in memory; and encrypted keys, without a terminal.
# Functions that are bound at the start, as pkg-config and the Makefile have it: at the first call of
# one that is bound then, the vector registers are saved on the stack, with the end of a key.
test_build secrets -Wl,-z,now
fake objects
export SECRET_PASSWORD='the password 4e5f' SECRET_PASSPHRASE='geheim & co'
certificate=$certs/encrypted.pem key=$certs/encrypted.key
test_run secrets PrivateKey.PKCS8
unset SECRET_PASSWORD SECRET_PASSPHRASE
fake certificate
KMIP_PASSPHRASE='geheim & co' call_is 'an encrypted key' 0 query
says 'the server knows whose it is' alice
KMIP_PASSPHRASE=geheim call_is 'a wrong passphrase' 3 query
says 'which is said' 'encrypted, and this is not its passphrase'
call_is 'an encrypted key and no passphrase' 3 query
says 'which is said' 'encrypted, and no passphrase is given'
# At a terminal, too: nothing is asked.
timeout $((20 * slack)) "$python" -c 'import pty, sys; pty.spawn(sys.argv[1:])' "$run/c/call" \
    "$host" "$port" "$certificate" "$key" "$authority" query >"$said" 2>&1 </dev/null
says 'at a terminal: it fails' 'no passphrase is given'
says_not 'at a terminal: no question' 'Enter'
