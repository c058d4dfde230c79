# shellcheck shell=bash
# tools/check_clients.sh, over a copy of the tools in which something is broken: it fails, and does not pass with less.
mkdir whole copy
cp -r "$top/clients" "$top/tools" whole
cp "$top/CHANGELOG.md" "$top/LICENSE" copy
printf '#!/bin/sh\ncp -r "%s" "$1"\n' "$certs" >whole/tools/live/certs.sh
checks_fail() { # WHAT FILE SED-SCRIPT WORD..: with this file changed so, it fails
    local status
    rm -rf copy/clients copy/tools && cp -r whole/* copy
    sed -i "$3" "copy/$2"
    ! cmp -s "copy/$2" "whole/$2"
    verdict "$1: it is broken"
    copy/tools/check_clients.sh --built "$built" --client shell --topic versions "${@:4}" >"$said" 2>&1
    status=$?
    ((status == 1)) && [[ $(tail -1 "$said") =~ ^[0-9]+\ passed,\ [1-9][0-9]*\ failed$ ]]
    verdict "$1: the checks fail"
}
checks_fail 'an exception in fakes.py' tools/live/fakes.py '/^def main/a\    raise ValueError("broken")'
says 'it is shown' 'ValueError: broken'
checks_fail 'a certs.sh that fails' tools/live/certs.sh '/^cp/i false || exit'
checks_fail 'a variable that is not set, before all' tools/check_clients.sh '/^    missing=\$(lacking/i\    : "$no_such"'
says 'it is said' '^FAILED  check broke off'
checks_fail 'a variable that is not set, after some' tools/live/harness.sh '/^give_up_rest() {/a\    : "$no_such"'
says 'what has passed is shown' '^ok '
checks_fail 'a case that breaks off' clients/tests/live/versions.sh '/^has_version clients.rust/i exit 0'
says 'it is said' 'versions.sh broke off'
checks_fail 'a file that is not there' clients/tests/live/versions.sh 's/clients.c.Makefile/clients\/c\/none/'
says 'it has no version' '^FAILED  shell: clients/c/none has the version'
checks_fail 'a case that is lost' clients/tests/live/versions.sh '/^has_version clients/d' --least shell=5
says 'it is said how many have passed' '^FAILED  shell: 4 checks have passed, and at least 5 should$'
rm -rf copy/clients copy/tools && cp -r whole/* copy
copy/tools/check_clients.sh --built "$built" --client shell --topic versions --seconds 0 --least shell=4 >"$said" 2>&1
verdict 'what is skipped for want of time fails nothing'
says 'and is said to be' '^skipped shell: .* no time is left$'
copy/tools/check_clients.sh --built "$built" --client shell --topic versions --least shell=4 >"$said" 2>&1
verdict 'with nothing broken they pass'
for words in '--seconds x' '--least shell' '--seconds' '--frob'; do
    # shellcheck disable=SC2086 # several words
    "$top/tools/check_clients.sh" $words >"$said" 2>&1
    (($? == 2)) && grep -q '^usage: ' "$said"
    verdict "words that are none: $words"
done
