# shellcheck shell=bash disable=SC2154
# Completion, as the two shells do it.
completes() { # WORD.. -- WANTED..: the last word of these completes to these
    local words=() wanted
    while [[ $1 != -- ]]; do words+=("$1") && shift; done
    shift
    wanted=$(printf '%s\n' "$@")
    "$kmip" __complete "$((${#words[@]} - 1))" "${words[@]}" >"$said" 2>&1
    [[ $(<"$said") == "$wanted" ]]
    verdict "${words[*]} is completed"
}
completes kmip des -- destroy
completes kmip sign k text:a --hash SHA2 -- SHA224 SHA256
completes kmip create AES 8 n --usage Sign,Ver -- Sign,Verify
completes kmip locate where state=Des -- state=Destroyed state=DestroyedCompromised
printf '[default]\n[test]\n[of production]\n' >kmip.conf
METSUWAN_CONF=kmip.conf completes kmip --profile t -- test
mkdir folder
touch folder/tbs.der 'folder/two words'
cat >in_bash.sh <<'END'
eval "$("$1" completion bash)"
cd folder || exit
complete_line() { # LINE
    local COMP_LINE=$1 COMP_POINT=${#1} COMP_WORDS COMP_CWORD COMPREPLY=()
    read -ra COMP_WORDS <<<"$1"
    if [[ $1 == *' ' ]]; then COMP_WORDS+=(''); fi
    COMP_WORDS[0]=$kmip
    COMP_CWORD=$((${#COMP_WORDS[@]} - 1))
    _kmip
    printf '%s\n' "${COMPREPLY[@]}" | sort
}
kmip=$1
complete_line 'kmip sign k @t'
complete_line 'kmip sign k text:a --pad'
complete_line 'kmip query -o tw'
complete_line 'kmip zzz'
END
bash in_bash.sh "$kmip" >"$said" 2>&1
[[ $(<"$said") == $'@tbs.der\n@two words\n--padding\ntwo words' ]]
verdict 'bash has files, options, and nothing where there is nothing'
if ! type -P zsh >/dev/null; then
    printf 'skipped command: completion in zsh is not tried: there is no zsh (Debian: apt-get install zsh)\n'
    return
fi
mkdir functions
"$kmip" completion zsh >functions/_kmip
ln -s "$kmip" kmip
"$python" -B "$own/zsh.py" "$work" >"$said" 2>&1
verdict 'zsh completes calls, options, values and files'
