# shellcheck shell=bash
# Encrypted keys, without a terminal; and no secret in the words or the environment of a process.
fake certificate
certificate=$certs/encrypted.pem key=$certs/encrypted.key
script_is 'an encrypted key, by KMIP_PASSPHRASE' 0 'KMIP_PASSPHRASE="geheim & co"; open; kmip query; kmip_close'
says 'the server knows whose it is' '"alice"'
printf 'geheim & co\n' >"$work/a phrase"
script_is 'an encrypted key, by KMIP_PASSPHRASE_FILE' 0 'KMIP_PASSPHRASE_FILE="$work/a phrase"; open; kmip query; kmip_close'
says 'the server knows whose it is' '"alice"'
script_is 'an encrypted key and a wrong passphrase' 3 'KMIP_PASSPHRASE=geheim; open; kmip query'
says 'the reason is said' 'private key'
script_is 'an encrypted key and an empty passphrase' 3 'KMIP_PASSPHRASE=; open; kmip query'
script_is 'an encrypted key and none' 3 open
says 'what is to be set is said' 'KMIP_PASSPHRASE'
script_is 'a file with the passphrase that is not there' 3 'KMIP_PASSPHRASE_FILE=$work/none; open'
says 'which is said' "$work/none"
certificate=$certs/client.pem key=$certs/client.key
script_is 'a passphrase for a key that has none' 0 'KMIP_PASSPHRASE=geheim; open; kmip query; kmip_close'

# With a terminal at hand: it is not asked.
printf '. "%s"\nkmip_open "%s" "%s" "%s" "%s"; kmip query; echo "status $?"\n' "$top/clients/shell/kmip.sh" "$host:$port" \
    "$certs/encrypted.pem" "$certs/encrypted.key" "$authority" >"$work/ask.sh"
timeout $((20 * slack)) "$python" -c 'import pty, sys; pty.spawn(["bash", sys.argv[1]])' "$work/ask.sh" >"$said" 2>&1 </dev/null
says 'at a terminal: status 3' '^status 3'
says_not 'at a terminal: no question' 'Enter pass'
{
    printf -- '-----BEGIN CERTIFICATE-----\nProc-Type: 4,ENCRYPTED\nDEK-Info: AES-256-CBC,000102030405060708090A0B0C0D0E0F\n\n'
    tail -n +2 "$certs/client.pem"
} >encrypted.pem
printf '. "%s"\nkmip_open "%s" "%s" "%s" "%s"; kmip register-certificate encrypted.pem; echo "status $?"\n' \
    "$top/clients/shell/kmip.sh" "$host:$port" "$certs/client.pem" "$certs/client.key" "$authority" >register.sh
timeout $((20 * slack)) "$python" -c 'import pty, sys; pty.spawn(["bash", sys.argv[1]])' register.sh >"$said" 2>&1 </dev/null
says 'at a terminal, an encrypted certificate to register: status 2' '^status 2'
says_not 'at a terminal, an encrypted certificate to register: no question' 'Enter pass'

# While a call waits, the words of all processes, and the environment of openssl and kmip_call.
fake held
export here_pid=$$
script 'export KMIP_USER=alice KMIP_PASSWORD=geheim2 KMIP_PASSPHRASE=geheim1; open; kmip sign "$held" 41 & calling
    ps -eo args | grep -v grep >words
    environment() { local process; for process in $1; do tr "\0" "\n" <"/proc/$process/environ" || exit; done; }
    grep -c "kmip_call .* $held 41$" words | sed "s/^/calls /"
    grep -c "geheim[12]" words | sed "s/^/words /"
    environment "$KMIP_PID" >openssl; grep -c "^KMIP_USER=alice$" openssl | sed "s/^/user /"
    grep -c geheim openssl | sed "s/^/openssl /"
    environment "$CALLING" >call; grep -c "^KMIP_PASSWORD=geheim2$" call | sed "s/^/password /"
    grep -c geheim1 call | sed "s/^/passphrase /"
    release; wait; kmip_close'
says 'the words of processes are seen' '^calls [1-9]'
says 'the environment of openssl is seen' '^user 1$'
says 'the environment of kmip_call is seen, and has the password' '^password 1$'
says 'no secret in the words of a process' '^words 0$'
says 'no secret in the environment of openssl' '^openssl 0$'
says 'no passphrase in the environment of kmip_call' '^passphrase 0$'
fake credential
script_is 'a password that is not exported is sent' 0 'KMIP_USER=alice; KMIP_PASSWORD="a word"; open; kmip_field vendor_identification query; kmip_close'
says 'as it is' '^alice:a word$'

# While a server keeps a key waiting, no process has it among its words. (It comes to the script by the environment.)
fake silent
export secret=5EC2E7
secret+=$(head -c 58 /dev/zero | tr '\0' 7)
export payload='{"tag":"RequestPayload","value":[{"tag":"KeyMaterial","type":"ByteString","value":"'$secret'"}]}'
export message='{"tag":"RequestMessage","value":[{"tag":"KeyMaterial","type":"ByteString","value":"'$secret'"}]}'
printf %s "$payload" >payload.json
script 'seen() { pgrep -f "^[^ ]*kmip_call .*$1" >/dev/null; }
    while_called() { # FILE PATTERN CALL WORD..
        open || return
        kmip "${@:3}" &
        until_true seen "$2" || return
        ps -eo args | grep -v grep >"$1"
        kill "$KMIP_PID"; wait; kmip_close
    }
    while_called register register register symmetric "$secret" format=Raw algorithm=AES length=256
    while_called operation Register operation Register "$payload"
    while_called file Register operation Register @payload.json
    while_called message message message "$message"
    grep -h "kmip_call .*\(register\|operation\|message\)" register operation file message
    cat register operation file message | grep -c "$secret" | sed "s/^/secrets /"'
says 'the words of register are seen' 'kmip_call .*register symmetric @3 format=Raw algorithm=AES length=256$'
says 'those of operation' 'kmip_call .*operation Register item-id=[0-9a-f]* @3$'
says 'those with a file' 'kmip_call .*operation Register item-id=[0-9a-f]* @payload.json$'
says 'those of message' 'kmip_call .*message @3$'
says 'no key is among the words of a process' '^secrets 0$'
fake good
script_is 'a key that is no hex is refused, and not shown' 2 'open; kmip register symmetric "${secret}1" format=Raw algorithm=AES length=256
    status=$?; kmip_close; exit $status'
says 'why' 'register: HEX is no even number of hex digits'
says_not 'and it is not shown' "$secret"
