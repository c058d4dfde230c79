# shellcheck shell=bash
# Fields of answers; outputs that cannot be written; words that Linux does not take; names and ports that are none.
fake good
script_is 'a field that is false' 0 'open; kmip_field "operations | length > 9" query; kmip_close'
says 'is written' '^false$'
script_is 'fields of which one is null' 0 'open; kmip_field "operations[0, 9]" query; kmip_close'
says 'are written' '^null$'
script_is 'a field that is not there' 1 'open; kmip_field "\"no such\"" query; status=$?; kmip_close; exit $status'
script_is 'fields that are not there' 1 'open; kmip_field "operations[8, 9]" query; status=$?; kmip_close; exit $status'
says 'is said as a line of JSON' '^\{"error":"MissingValue","text":"the answer has no operations\[8, 9\]"\}$'
script_is 'a field that is none of jq' 2 'open; kmip_field "private key" create-rsa 2048 a b; status=$?; kmip query; kmip_close; exit $status'
says 'is said by jq' '^jq: '
says 'before the call' '^\{"error":"GrammarError","text":"jq does not read the field.*nothing was sent"\}$'
says_not 'so that no key is made that nobody knows' 'private_key'
says 'and the connection is good' '^\{"answer":'
script_is 'no jq' 2 'open; mkdir "$work/no jq"; for tool in bash flock timeout openssl; do ln -s "$(type -P "$tool")" "$work/no jq"; done
    PATH=$work/no\ jq; kmip_field private_key create-rsa 2048 a b; (($? == 2)) || exit; kmip pem k'
says 'is said before the call' '^\{"error":"GrammarError","text":"there is no jq .*nothing was sent"\}$'
for field in privat_key 'private_key | keys' 'private_key | empty' 'private_key | halt' 'private_key | halt_error(0)'; do
    script_is "the field $field of a new pair" 1 'open; kmip_field "'"$field"'" create-rsa 2048 a b; status=$?; kmip_close; exit $status'
    says 'is missing' '^\{"error":"MissingValue"'
    says 'and the identifiers of the pair are shown' '^\{"answer":\{"private_key":"private","public_key":"public"\}\}$'
done
printf 'a secret' >secret
script_is 'a field that is not there of what was registered' 1 'open; kmip_field no_such register-secret secret; status=$?; kmip_close; exit $status'
says 'the identifier is shown' '^\{"answer":\{"unique_identifier":"1"\}\}$'
script_is 'a field that is not there of what an operation has made' 1 'open
    kmip_field no_such operation Register "{\"tag\":\"RequestPayload\",\"value\":[]}"; status=$?; kmip_close; exit $status'
says 'the identifier is shown' '^\{"answer":\{.*"UniqueIdentifier","type":"TextString","value":"1"'
fake long_integers
script_is 'numbers that jq keeps' 0 'open; kmip_field "attributes[0, 1].value.LongInteger" attributes small; kmip_close'
says 'are written' '^9007199254740991$'
says 'with their sign' '^-9007199254740991$'
for asked in attributes 'attributes[0].value.LongInteger' 'attributes[1].value.LongInteger' \
    'attributes[0].value.LongInteger | tostring' 'attributes[0].value.LongInteger - 1' \
    'attributes[0].value.LongInteger == 9007199254740992' 'attributes | tojson'; do
    script_is "numbers that jq would round: $asked" 1 'open; kmip_field "'"$asked"'" attributes large; status=$?; kmip_close; exit $status'
    says 'are refused' '^\{"error":"MissingValue","text":"the field has a number that jq cannot keep'
done
script_is 'what does not depend on them' 0 'open; kmip_field "attributes[0].name" attributes large; kmip_close'
says 'is written' '^x-0$'
script_is 'kmip shows them' 0 'open; kmip attributes large; kmip_close'
says 'as they are' '"LongInteger":9007199254740993.*"LongInteger":-9223372036854775808'
fake objects
script_is 'a field that an answer with a key has not' 1 'open; kmip_field no_such get SymmetricKey.Raw; status=$?; kmip_close; exit $status'
says_not 'nothing of the key is shown' "$(printf 'raw bytes' | od -An -v -tx1 | tr -d ' \n')|SymmetricKey"

# Each leaves the connection lost, as every status past 2.
for call in 'kmip get PublicKey.X509' 'kmip_field object_type get PublicKey.X509' 'kmip pem PublicKey.X509'; do
    script_is "$call: a disk that is full" 4 "open; $call >/dev/full; status=\$?; kmip query; ((\$? == 3)) && exit \$status"
    says 'is said' '^kmip: .* cannot be written$'
done
script_is 'the disk of a record is full' 4 'open; KMIP_RECORD=/dev/full kmip get PublicKey.X509; status=$?; kmip_close; exit $status'
says 'the answer is written' '^\{"answer":'
says 'and the record is named' '^kmip: .*/dev/full'
script_is 'a record past the size that a file may have' 4 'open; export KMIP_RECORD=$work/limited
    kmip get SymmetricKey.Raw >/dev/null; before=$(stat -c %s "$KMIP_RECORD"); ulimit -f $((before / 1024 + 1))
    for ((i = 0; i < 20; i++)); do kmip get SymmetricKey.Raw >/dev/null || exit; done'
[[ $(tail -c 1 limited | od -An -tu1) == *10 ]] && (($(grep -vc '^get SymmetricKey.Raw 42007B[0-9A-F]*$' limited) == 0))
verdict 'is taken back whole'
script_is 'an output that is closed' 4 'open; kmip get PublicKey.X509 >&-; status=$?; kmip get PublicKey.X509; kmip_close; exit $status'
says 'nothing was sent' 'nothing was sent$'
says 'and the connection is good' '^\{"answer":'

fake good
script_is 'words that Linux does not take' 0 'open
    data=$(head -c 131072 /dev/zero | tr "\0" 0)
    kmip sign k "$data"; (($? == 2)) || exit
    KMIP_USER=$data KMIP_PASSWORD=p kmip query; (($? == 2)) || exit
    kmip locate "$(printf "%43700s")"; (($? == 2)) || exit
    kmip query; kmip_close'
(($(grep -c '"GrammarError".*131071 bytes.*nothing was sent' "$said") == 3))
verdict 'each is said, and the connection is good'
script_is 'a key with more bytes than a word may have' 0 'open
    kmip register symmetric "$(head -c 131072 /dev/zero | tr "\0" 0)" format=Raw algorithm=AES length=128; kmip_close'
script_is 'as many bytes as it takes' 0 'open; data=$(head -c 131070 /dev/zero | tr "\0" 0); kmip sign k "$data"; kmip_close'
script_is 'a call of another name, with no word' 2 'open; kmip qeury; status=$?; kmip_close; exit $status'
says 'is named' '"there is no call qeury"'
script_is 'a call without its identifier' 2 'open; kmip get; status=$?; kmip_close; exit $status'
says 'is said' 'the words are not those of get ID '

# By the address of the socket a number past 65535 would be another port: 65536 and that of the server, the server's.
for given in $((port + 65536)) "+$((port + 65536))" 0 65536 -1; do
    port=$given script_is "the port $given" 2 open
    says 'is said to be none' "[ ]${given/+/[+]} is no port"
done
host=.example.test script_is 'a host that begins with a dot' 2 open
says 'is said to be none' ' \.example\.test is no host$'
port=0$port script_is 'a port with a zero before it' 0 'open; kmip query; kmip_close'
