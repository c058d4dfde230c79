# shellcheck shell=bash
_kmip() {
    local IFS=$'\n' current=${COMP_WORDS[COMP_CWORD]}
    mapfile -t COMPREPLY < <("${COMP_WORDS[0]}" __complete "$COMP_CWORD" "${COMP_WORDS[@]}" 2>/dev/null)
    if [[ " ${COMPREPLY[*]} " == *@FILES* ]]; then
        mapfile -t COMPREPLY < <(compgen -P "${current%%[!@]*}" -f -- "${current#@}")
        compopt -o filenames 2>/dev/null
    elif [[ ${COMPREPLY[0]-} == *= ]]; then
        compopt -o nospace 2>/dev/null
    fi
}
complete -F _kmip kmip
