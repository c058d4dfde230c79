# shellcheck shell=bash
# Scripts with strict options: no call of kmip.sh ends them but by its status.
fake good
strict='set -euo pipefail; set -o noclobber; IFS=,;'
script_is 'set -e -u: open, call and close' 0 "$strict"' open; kmip query; kmip_field signature_data sign a b1; kmip_close; kmip_close; echo "the end"'
says 'set -e -u: to the end' '^the end$'
script_is 'set -e: a call that is refused ends the script with its status' 2 "$strict"' open; kmip sing; echo "the end"'
says_not 'set -e: and no later' '^the end$'
script_is 'set -e: a failure can be handled' 0 "$strict"' open; kmip sing || echo "status $?"; kmip_field no_such query || echo "status $?"; kmip query; kmip_close; echo "the end"'
says 'set -e: by its status' '^status 2$'
says 'set -e: a field that is not there' '^status 1$'
says 'set -e: to the end' '^the end$'
script_is 'set -e: kmip_field says the error' 2 "$strict"' open; kmip_field operations sign ""'
says 'set -e: as a line of JSON' '^\{"error":'
script_is 'set -u: calls with no connection, and kmip_close' 0 "$strict"' kmip query || echo "status $?"; kmip_close; kmip_field x query || echo "status $?"; echo "the end"'
says 'set -u: they have status 3' '^status 3$'
script_is 'set -u: a call with no name' 0 "$strict"' open; kmip || echo "status $?"; kmip query; kmip_close'
says 'set -u: it has status 2' '^status 2$'
script_is 'set -e: kmip_open twice' 2 "$strict"' open; open'
script_is 'set -e: no words' 2 "$strict"' kmip_open'
fake nobody
script_is 'set -e: nobody listens' 3 "$strict"' open; kmip query'
says 'the reason is said' 'Connection refused'
fake good
certificate=$certs/none.pem script_is 'set -e: a certificate that is not there' 3 "$strict"' open'
says 'which one is said' 'none\.pem'
key=$certs/plain.key script_is 'set -e: the key of another certificate' 3 "$strict"' open; kmip query'
fake wrong_host
script_is 'set -e: a server for another host' 3 "$strict"' open; kmip query'
says 'the reason is said' 'certificate: hostname mismatch'
fake good
script_is 'set -x: no passphrase and no password is traced' 0 \
    'set -x; KMIP_USER=alice; set +x; KMIP_PASSPHRASE=verborgen1 KMIP_PASSWORD=verborgen2; set -x; open; kmip query >/dev/null; kmip_close; set +x'
says_not 'neither' verborgen
script_is 'bash --posix' 0 'set -o posix; open; kmip query; kmip_close'
script_is 'a trap of the script on EXIT and ERR is its own' 0 'set -E; trap "echo leaving" EXIT; trap "echo wrong" ERR; open; kmip query >/dev/null; kmip_close; trap - ERR'
(($(grep -c '^leaving$' "$said") == 1)) && ! grep -q wrong "$said"
verdict 'and is run once'
script_is 'a coprocess of the script' 0 'coproc MINE { cat; }; open; kmip query; echo hi >&"${MINE[1]}"; read -r -u "${MINE[0]}" back; kmip_close; [[ $back == hi ]]'
patience=60 script_is 'ten connections leave no descriptor and no file' 0 '
    TMPDIR=$work/tmp; export TMPDIR; mkdir -p "$TMPDIR"
    open; kmip_close; before=$(ls /proc/$$/fd | wc -l)
    for ((i = 0; i < 10; i++)); do open; kmip_close; done
    (($(ls /proc/$$/fd | wc -l) == before)) && [[ -z $(ls "$TMPDIR") ]]'
