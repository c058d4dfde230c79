# shellcheck shell=bash
# Paths with spaces and signs, and the settings of a call.
fake good
# shellcheck disable=SC2089,SC2090 # the quotes are part of the name
odd="$work/it's 100% \"odd\" & co"
mkdir -p "$odd"
cp "$certs/client.pem" "$odd/the client.pem"
cp "$certs/client.key" "$odd/the key.pem"
cp "$certs/ca.pem" "$odd/ca,(1).pem"
cp "$built/kmip_call" "$odd/kmip call"
cp "$top"/clients/shell/kmip{,_keys}.sh "$odd"
# shellcheck disable=SC2090
export odd
script_is 'certificates, program and record with odd names' 0 '. "$odd/kmip.sh"; cd "$odd"
    KMIP_CALL="$odd/kmip call" KMIP_RECORD="the record"
    kmip_open "$host:$port" "the client.pem" "the key.pem" "ca,(1).pem"; kmip sign a 41; kmip_close'
grep -q '^sign a 41 42007B01' "$odd/the record"
verdict 'the call is in the record'
cp "$certs/client.pem" "$odd/-client.pem"
cp "$certs/client.key" "$odd/-e"
cp "$certs/ca.pem" "$odd/data:ca.pem"
script_is 'certificates with names of options and of addresses' 0 'cd "$odd"; kmip_open "$host:$port" -client.pem -e data:ca.pem; kmip query; kmip_close'
says_not 'no tool takes them for these' 'option|usage'
script_is 'KMIP_CALL with words before its own' 0 'KMIP_CALL="env -u PATH $KMIP_CALL"; open; kmip query; kmip_close'
script_is 'no kmip_call' 3 'unset KMIP_CALL; PATH=/usr/bin:/bin; open'
says 'what is missing is said' 'clients/build.sh'
script_is 'a KMIP_CALL that cannot be run' 3 'open; KMIP_CALL=/dev/null; kmip query'
script_is 'no openssl' 3 'mkdir "$work/bin"; for tool in bash flock grep timeout mktemp mkfifo sleep; do ln -s "$(type -P $tool)" "$work/bin"; done; PATH=$work/bin; open'
says 'which is said' 'openssl'
script_is 'an openssl that is too old' 3 'mkdir "$work/old"; printf "#!/bin/bash\necho OpenSSL 1.1.1w\n" >"$work/old/openssl"; chmod +x "$work/old/openssl"; PATH=$work/old:$PATH; open'
says 'which is said' 'OpenSSL 1.1.1w is too old'
script_is 'a KMIP_TIMEOUT that is no number' 2 'open; KMIP_TIMEOUT=soon; kmip query'
script_is 'a KMIP_TIMEOUT of part of a second, and of none' 0 'open; KMIP_TIMEOUT=9.5 kmip query; KMIP_TIMEOUT=0 kmip query; kmip_close'
script_is 'a KMIP_LIMIT that is no number' 2 'open; KMIP_LIMIT=much; kmip query'
script_is 'after a status of 2 the connection is good' 0 'open; KMIP_LIMIT=much; kmip query; unset KMIP_LIMIT; kmip query; kmip_close'
for given in KMIP_USER=alice KMIP_PASSWORD=p; do
    script_is "only $given" 2 "open; $given kmip query; status=\$?; kmip query; kmip_close; exit \$status"
    says 'is said' '"GrammarError","text":"a credential is a user and a password'
    says 'and the connection is good' '^\{"answer":'
done
script_is 'streams that are closed' 0 'open; KMIP_RECORD=$work/recorded kmip sign a 41 <&- 2>&-; kmip_close'
[[ $(wc -l <recorded) == 1 ]] && grep -q '^sign a 41 42007B01[0-9A-F]*$' recorded
verdict 'get nothing of what is opened'
script_is 'a host with the dot that ends a whole name' 0 'kmip_client_words kms.example.:5696 "$certificate" "$key" "$authority"
    [[ " ${KMIP_WORDS[*]} " == *" -verify_hostname kms.example -servername kms.example "* ]]'
script_is 'settings that are empty are not set' 0 'KMIP_TIMEOUT= KMIP_LIMIT= KMIP_RECORD= KMIP_CALL=; PATH=$(dirname "$built/kmip_call"):$PATH; open; kmip query; kmip_close'
certificate=$certs/chained.pem key=$certs/chained.key
fake certificate
script_is 'a certificate whose file has that of an authority between' 0 'open; kmip query; kmip_close'
says 'the server knows whose it is' carol
