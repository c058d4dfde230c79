# shellcheck shell=bash
# needs: server
# tools/try_server.sh: the row of PyKMIP is the one that docs/SERVERS.md has, and nothing is left on the server.
try() { # WORD..: try_server.sh with the built program
    KMIP_CALL=$built/kmip_call "$top/tools/try_server.sh" "$@"
}
try "localhost:$server_port" "$certificate" "$key" "$authority" >"$work/tried" 2>"$said"
verdict 'try_server.sh: a server that answers Query'
row=$(grep '^| PyKMIP' "$work/tried")
cp "$work/tried" "$said"
[[ -n $row ]] && grep -qxF "$row" "$top/docs/SERVERS.md"
verdict 'its row is that of docs/SERVERS.md'
says 'a call that the server does not know has its reason' '^RNG Retrieve: status 1, InvalidMessage: '
[[ $(grep -c '^| ' "$work/tried") == 2 ]] && grep -qx '|---|---|---|---|---|' "$work/tried"
verdict 'it is one row below one head'
. "$top/clients/shell/kmip.sh"
KMIP_CALL=$built/kmip_call kmip_open "localhost:$server_port" "$certificate" "$key" "$authority" 2>"$said"
left=''
for name in rsa rsa-public renamed aes secret; do
    # (PyKMIP finds no part of a name: all that is left there is looked through)
    KMIP_CALL=$built/kmip_call kmip locate >"$work/line" 2>>"$said"
    for id in $(jq -r '.answer.unique_identifiers[]?' "$work/line"); do
        KMIP_CALL=$built/kmip_call kmip attributes "$id" Name 2>/dev/null | grep -q "metsuwan-try-.*-$name" && left+=" $id"
    done
done
kmip_close
printf 'left:%s\n' "$left" >"$said"
[[ -z $left ]]
verdict 'it has destroyed what it made'
try "localhost:$server_port" "$certificate" >"$said" 2>&1
(($? == 2))
verdict 'words that are none: status 2'
try localhost:1 "$certificate" "$key" "$authority" >"$said" 2>&1
(($? == 3))
verdict 'a server that is not there: status 3'
