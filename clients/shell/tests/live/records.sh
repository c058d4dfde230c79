# shellcheck shell=bash
# Records of calls: those of several processes in one file, and of a process whose standard streams are closed.
fake many_operations
record() {
    KMIP_TIMEOUT=0 KMIP_RECORD=$work/shared by_shell query >/dev/null 2>>"$said"
    echo "status $?" >>statuses
}
: >"$said"
for ((i = 0; i < 12; i++)); do record & done
wait
[[ $(sort -u statuses) == 'status 0' ]]
verdict 'twelve scripts record large answers in one file'
printf '%d lines, of which %d are records\n' "$(wc -l <shared)" "$(awk 'length > 1000000 && /^query 42007B[0-9A-F]+$/ { n++ } END { print n + 0 }' shared)" >"$said"
[[ $(<"$said") == '12 lines, of which 12 are records' ]]
verdict 'each of them is there, whole'
# While a call waits for a server that is silent, another with the same record is made.
fake silent
KMIP_TIMEOUT=$((20 * slack)) KMIP_RECORD=$work/waited by_shell query >/dev/null 2>&1 &
waiting=$!
for ((i = 0; i < 100 * slack; i++)); do [[ -e waited ]] || sleep 0.1; done
fake many_operations
began=$EPOCHSECONDS
KMIP_TIMEOUT=$((10 * slack)) KMIP_RECORD=$work/waited by_shell query >/dev/null 2>"$said"
echo "status $? after $((EPOCHSECONDS - began)) seconds; $(wc -l <waited) lines" >>"$said"
kill -0 "$waiting" && [[ $(tail -n 1 "$said") == 'status 0 after '*' seconds; 1 lines' ]]
verdict 'a call waits for a silent server, and keeps no other from the file of its record'
kill "$waiting" 2>/dev/null
wait "$waiting" 2>/dev/null
without_stream() { # WHAT: the status is that of the command before, which had not all three streams
    local status=$?
    printf 'status %d; the record has %d bytes\n' "$status" "$(stat -c %s secret 2>/dev/null || echo 0)" >>"$said"
    ((status == 2)) && [[ ! -s secret ]]
    verdict "$1: nothing is recorded"
    rm -f secret
}
words=(user=u password=geheim "record=$work/secret" sign k 00)
: >"$said"
"$built/kmip_call" "${words[@]}" >&- 2>"$said" </dev/null
without_stream 'standard output is closed'
"$built/kmip_call" "${words[@]}" >"$said" 2>&- </dev/null
without_stream 'standard error is closed'
"$built/kmip_call" "${words[@]}" >"$said" 2>&1 <&-
without_stream 'standard input is closed'
# What is not UTF-8 is no word, and no password.
is_no_text() { # WHAT COMMAND..
    "${@:2}" >"$said" 2>&1 </dev/null
    (($? == 2)) && grep -qF '{"error":"GrammarError","text":"a word or KMIP_PASSWORD is not UTF-8"}' "$said"
    verdict "$1 that is not UTF-8 is refused"
}
is_no_text 'a word' "$built/kmip_call" get $'\xff'
is_no_text 'a password of the environment' env KMIP_PASSWORD=$'\xff' "$built/kmip_call" user=u query
