#compdef kmip
_kmip() {
    local -a found
    found=("${(@f)$(${words[1]} __complete $((CURRENT - 1)) "${words[@]}" 2>/dev/null)}")
    if [[ ${found[(r)@FILES]} == @FILES ]]; then
        compset -P '@'
        _files
    elif [[ ${found[1]} == *= ]]; then
        compadd -S '' -a found
    else
        compadd -a found
    fi
}
# (found on the path of functions it is called, read by `source` it is not)
if [[ ${funcstack[1]-} == _kmip ]]; then
    _kmip "$@"
else
    compdef _kmip kmip
fi
