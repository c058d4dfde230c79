# shellcheck shell=bash disable=SC2154
# needs: server
# Names in place of identifiers, lists, scripts and ping, against PyKMIP.
name=$(printf 'names of %s' "$BASHPID")
kmip_is 'a key' 0 create-aes 256 "$name" --raw
id=$(<"$said")
kmip_is 'by its name' 0 attributes "$name" State --json
says 'it is the same' "\"unique_identifier\":\"$id\""
kmip_is 'by name:' 0 attributes "name:$name" State
kmip_is 'by id:' 0 attributes "id:$id" State
kmip_is 'by digits' 0 attributes "$id" State
kmip_is 'a name that none has' 1 attributes "no $name" State
says 'it is said' 'no object has the name or the identifier'
kmip_is 'another key' 0 create-aes 256 "$name, 2" --raw
other=$(<"$said")
kmip_is 'another name' 0 rename "$other" "$name"
kmip_is 'a name that two have' 2 attributes "$name" State
says 'both are told' "2 objects have the name $name: id:($id, id:$other|$other, id:$id)"
kmip_is 'a list' 0 list where "name=$name"
(($(grep -c '^{' "$said") == 2))
verdict 'has both, a line of JSON each'
printf '%s\n' '# names' "create-aes 256 '$name, 3'" "activate '$name, 3'" '' "sing '$name'" "attributes '$name, 3' State" >calls
kmip_is 'a script' 2 run calls
[[ $(cut -c1-9 "$said" | tr '\n' ' ') == '{"answer" {"answer" {"error": {"answer" ' ]]
verdict 'has a line for each'
says 'the state is that after' '"State":"Active"'
kmip_is 'a script that stops' 2 run calls --stop
[[ $(cut -c1-9 "$said" | tr '\n' ' ') == '{"answer" {"error": ' ]]
verdict 'ends there'
for ((at = 0; at < 100; at++)); do echo "attributes $id State"; done >many
kmip_is 'a script in batches' 0 run many --batch 30
(($(grep -c '"answer"' "$said") == 100))
verdict 'has an answer for each'
kmip_here run - <many >"$said" 2>&1
verdict 'a script of standard input'
kmip_is ping 0 ping
says 'the address' "^server +$host:$port\$"
says 'TLS' '^tls +TLSv1\.[23], '
says 'the certificate' '^certificate +.*for localhost; until '
says 'the versions' '^versions +.*1\.2'
says 'the operations' '^operations +.*Locate'
says 'the time' '^time +[0-9.]+ ms to connect, [0-9.]+ ms a call'
kmip_is 'an operation that the server has not' 1 hash text:a --hash SHA256
says 'what to do is said' 'kmip query'
kmip_is 'a trace' 0 attributes "$id" State --trace
says 'has the items' '^ +UniqueIdentifier \(TextString\)$|kmip_ttlv'
