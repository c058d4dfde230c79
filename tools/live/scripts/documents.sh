# shellcheck shell=bash
# Links, sentences and examples of the documents; and the manual page, the completion and the program have the same calls
# and options.
"$python" -B "$here/scripts/documents.py" "$top" >"$said" 2>&1
verdict 'links of the documents lead somewhere, sentences are short, and examples and names stand in the code'
mapfile -t calls < <("$built/kmip_call" --help | sed -n '/^CALL is one of/,/^$/s/^    \([a-z][a-z-]*\).*/\1/p' | sort)
((${#calls[@]} > 10))
verdict 'kmip_call --help names the calls'
. "$top/clients/shell/completion.bash"
[[ $(printf '%s\n' "${_kmip_calls[@]}" | sort) == "$(printf '%s\n' "${calls[@]}")" ]]
verdict 'the completion has the same'
[[ $(printf '%s\n' "${_kmip_table[@]}" | sort) == "$("$built/kmip_call" --operations | sed -n 's/^\([a-z][a-z-]*\).*/\1/p' | sort)" ]]
verdict 'and the calls that kmip_call --operations lists'
page=$top/clients/man/kmip_call.1
[[ $(sed -n '/^\.Ss Calls/,/^\.Ss Values/s/^\.It Cm \([a-z-]*\).*/\1/p' "$page" | sort) == "$(printf '%s\n' "${calls[@]}")" ]]
verdict 'the manual page has the same'
for option in $("$built/kmip_call" --help | grep '^    kmip_call \[' | grep -o '\[[a-z]*=' | tr -d '['); do
    grep -q "^\.It Cm .*$option" "$page" && [[ " $(declare -f _kmip_call _kmip_follow) " == *"$option"* ]]
    verdict "$option is in both"
done
compared() { # SED: clients and documents with what the program prints, so edited; leaves the names of those that differ
    { "$built/kmip_call" --grammar && "$built/kmip_call" --operations; } | sed "$1" |
        "$python" "$top/clients/grammar.py" --check >"$said" 2>&1
}
compared ''
verdict 'the clients and their documents have the calls that kmip_call --grammar and --operations print'
differ() { # SED FILE..: these have not what is added to the program's table
    ! compared "$1" && [[ $(sed 's/ is not as .*//' "$said" | sort) == "$(printf 'clients/%s\n' "${@:2}" | sort)" ]]
}
differ 's/^derive-key ID METHOD/& [new=HEX]/' python/metsuwan/calls.py shell/completion.bash shell/kmip.sh
verdict 'an option of a call of --operations that the clients have not is found in each'
differ 's/^derive-key ID/& HEX/' python/metsuwan/calls.py rust/src/word.rs shell/completion.bash shell/kmip.sh
verdict 'and a word'
differ '2,$s/ \[offset=SECONDS\]//' python/metsuwan/calls.py shell/completion.bash shell/kmip.sh
verdict 'and an option that they have, and the program has not'
unknown=$(for name in "${_kmip_operations[@]}"; do
    "$built/kmip_call" operation "$name" '' 2>&1 </dev/null | grep -q 'the payload: line 1' || echo "$name"
done)
[[ -z $unknown ]] && ((${#_kmip_operations[@]} == 41))
verdict 'the completion has the names of all operations'
# What bash-completion would ask for: LINE completes to these words.
completes() { # LINE WORD..
    local line=$1 COMP_LINE=$1 COMP_POINT=${#1} COMP_WORDS COMP_CWORD COMPREPLY=() function
    read -ra COMP_WORDS <<<"$line"
    if [[ $line == *' ' ]]; then COMP_WORDS+=(''); fi
    COMP_CWORD=$((${#COMP_WORDS[@]} - 1))
    function=$(complete -p "${COMP_WORDS[0]}" | sed 's/.*-F \([^ ]*\).*/\1/')
    "$function"
    [[ $(printf '%s\n' "${COMPREPLY[@]}" | sort) == "$(printf '%s\n' "${@:2}" | sort)" ]]
    local status=$?
    printf '%s: %s\n' "$line" "${COMPREPLY[*]}" >"$said"
    return $status
}
touch 'a record' another
completes 'kmip sign 2 00 ha' hash= && completes 'kmip sign 2 00 hash=SHA2' SHA224 SHA256 &&
    completes 'kmip sign 2 00 hash=MD5 ' padding= algorithm= prehashed && completes 'kmip create A' AES &&
    completes 'kmip create AES 8 n usage=Sign,Ver' Sign,Verify && completes 'kmip_call user=a get x f' format= &&
    completes 'kmip locate where state=Des' Destroyed DestroyedCompromised && completes 'kmip register p' public private &&
    completes 'kmip attribute-modify 1 name=a i' index= && completes 'kmip query h'
verdict 'completion of options and of their values'
completes 'kmip derive-key 5 HMAC sa' salt= && completes 'kmip derive-key 5 HMAC salt=00 length=8 i' iv= iterations= &&
    completes 'kmip check 5 usage=Sign,Ver' Sign,Verify && completes 'kmip encrypt 5 00 random-iv=t' true &&
    completes 'kmip mac-verify 5 00 h' && completes 'kmip mac-verify 5 00 00 h' hash= && completes 'kmip validate 5 6 h' &&
    completes 'kmip_call user=a rekey 5 ' offset=
verdict 'completion of those of the calls that kmip_call --operations lists'
completes 'kmip_call cr' create create-rsa create-aes create-ec create-pair create-key && completes 'kmip_call user=a pa' password= &&
    completes 'kmip_call limit=1 s' sign && completes 'kmip_call record=a' 'a record' another &&
    completes 'kmip_call user=a destroy x' && completes 'kmip_call --v' --version &&
    completes 'kmip_call user=a operation Enc' Encrypt && completes 'kmip_call operation Encrypt v' version=
verdict 'completion of kmip_call'
completes 'kmip operation MAC' MAC MACVerify && completes 'kmip operation MAC ' version= item-id= &&
    completes 'kmip operation MAC item-id=01 ' version= && completes 'kmip operation MAC version=1.0 ' item-id= && completes 'kmip operation MAC @ano' another && completes 'kmip message @ano' another &&
    completes 'kmip locate w' where && completes 'kmip des' destroy && completes 'kmip p' pem poll && completes 'kmip enc' encrypt && completes 'kmip_field data dec' decrypt && completes 'kmip destroy d' && completes 'kmip_field sig' signature_data &&
    completes 'kmip_field signature_data si' sign && completes 'kmip_open localhost:5696 ano' another && completes 'kmip_open a'
verdict 'completion of the functions'
for manual in "$top"/clients/man/*.1; do
    if type -P mandoc >/dev/null; then
        mandoc -T lint -W warning "$manual" >"$said" 2>&1
        verdict "mandoc finds nothing in ${manual##*/}"
    fi
    if type -P man >/dev/null; then
        LC_ALL=C.UTF-8 man --warnings -l "$manual" 2>"$said" >"$work/page.txt"
        [[ ! -s $said ]] && grep -q 'EXIT STATUS' "$work/page.txt"
        verdict "man shows ${manual##*/} with no warning"
    fi
done
