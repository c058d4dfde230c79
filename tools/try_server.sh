#!/bin/bash
# Tries what a KMIP server does of the calls of this client, and prints a row of docs/SERVERS.md, to send back.
#
#   tools/try_server.sh [--version] HOST:PORT CERTIFICATE KEY AUTHORITY
#
# The words are those of kmip_open: the server, your certificate and its key, and the authority of the server's certificate,
# each a PEM file. It asks for versions and operations, makes keys and a secret of its own with names that begin with
# `metsuwan-try-`, makes each call below on them, and destroys what it made. It needs leave to do so: try it on a server for
# tests. KMIP_USER and KMIP_PASSWORD are a credential, as in kmip.sh.
#
# After the row stands a line for each call: what it was answered, or the server's reason. The status is 0 where the server
# answered Query, whatever it refused; 1 where it did not; 2 for words that are none; 3 where it cannot be reached.
#
# It needs kmip_call on the path or in KMIP_CALL, and kmip.sh in this checkout or on the path, with openssl and jq. In a
# release it is kmip_try_server.
set -u
top=$(cd "$(dirname "$(realpath "$0")")/.." && pwd)

usage() {
    sed -n '4s/^# */usage: /p' "$0" >&2
    exit 2
}
case ${1-} in
--help) sed -n '2,/^set/{/^set/d;s/^# \{0,1\}//p}' "$0" && exit ;;
--version)
    "${KMIP_CALL:-kmip_call}" --version
    exit
    ;;
esac
if (($# != 4)) || [[ $1 != *:* ]]; then usage; fi
functions=$top/clients/shell/kmip.sh
[[ -f $functions ]] || functions=$(type -P kmip.sh) || functions=''
if [[ -z $functions ]]; then
    echo 'try_server.sh: there is no kmip.sh, in the checkout or on the path' >&2
    exit 2
fi
# shellcheck disable=SC1090 # which of the two it is, is known here alone
. "$functions"

server=("$@") mark=metsuwan-try-$$ made=() answered=() refused=() lines=()
work=$(mktemp -d -t kmip-try-XXXXXX) || exit 3
ended() {
    kmip_close 2>/dev/null
    rm -rf "$work"
}
trap ended EXIT

# What the server said of a failure, by its name or number, or the client's error.
reason_of() { # LINE
    jq -r 'if .reason then (.reason.name // ("reason " + (.reason.number | tostring)))
        + (if .message then ": " + .message else "" end) else .error + ": " + (.text // "") end' <<<"$1" 2>/dev/null |
        tr '\n|' '  ' | cut -c1-100
}

# Makes a call, and notes under this name what it came to. Its line is left in `line`, its status in `status`; a connection
# that was lost is opened again.
try() { # NAME WORD..
    local name=$1 why
    line=$(kmip "${@:2}" 2>"$work/said")
    status=$?
    if ((status == 0)); then
        answered+=("$name")
        lines+=("$name: answered")
        return 0
    fi
    [[ -n $line ]] || line=$(tail -1 "$work/said")
    why=$(reason_of "$line")
    refused+=("$name (${why%%:*})")
    lines+=("$name: status $status, ${why:-no reason}")
    if ((status >= 3)); then
        kmip_close 2>/dev/null
        kmip_open "${server[@]}" 2>"$work/said"
    fi
    return 1
}
field() { # NAME: of the last answer
    jq -r --arg name "$1" '.answer[$name] // empty' <<<"$line" 2>/dev/null
}
pairs() {
    local private public
    try 'Create Key Pair' create-rsa 2048 "$mark-rsa" "$mark-rsa-public" || return
    private=$(field private_key) public=$(field public_key)
    made+=("$private" "$public")
    try Locate locate "$mark-rsa"
    try Activate activate "$private"
    try Sign sign "$private" 68656C6C6F
    try 'Sign (PSS)' sign "$private" 68656C6C6F padding=PSS
    try Get get "$public"
    try 'Get Attributes' attributes "$private"
    try 'Get Attribute List' attribute-list "$private"
    try 'Add Attribute' attribute-add "$public" group=metsuwan-try
    try 'Modify Attribute' rename "$public" "$mark-renamed"
    try 'Delete Attribute' attribute-delete "$public" 'Object Group'
    try Revoke revoke "$private"
}
secrets() {
    local key text cipher=(mode=CBC padding=PKCS5 algorithm=AES iv=00112233445566778899AABBCCDDEEFF)
    if try Create create AES 256 "$mark-aes" usage=Encrypt,Decrypt,MacGenerate; then
        key=$(field unique_identifier)
        made+=("$key")
        kmip activate "$key" >/dev/null 2>&1
        if try Encrypt encrypt "$key" 68656C6C6F "${cipher[@]}"; then
            text=$(field data)
            try Decrypt decrypt "$key" "$text" "${cipher[@]}"
        fi
        try MAC mac "$key" 68656C6C6F algorithm=HMAC_SHA256
        try Re-key rekey "$key" && made+=("$(field unique_identifier)")
        kmip revoke "$key" >/dev/null 2>&1
    fi
    printf 'a secret' >"$work/secret"
    try Register register-secret "$work/secret" "name=$mark-secret" && made+=("$(field unique_identifier)")
    try 'RNG Retrieve' rng 16
    try 'Create Key Pair (P-256)' create-ec P_256 "$mark-ec" "$mark-ec-public" &&
        made+=("$(field private_key)" "$(field public_key)")
}
joined() { # WORD..: with commas
    local all
    printf -v all '%s, ' "$@"
    printf '%s' "${all%, }"
}
tls_of() {
    openssl s_client -connect "${server[0]}" -cert "${server[1]}" -key "${server[2]}" -CAfile "${server[3]}" -brief </dev/null 2>&1 |
        sed -n 's/^Protocol version: *//p'
}

if ! kmip_open "${server[@]}"; then exit 3; fi
try 'Discover Versions' discover
versions=$(jq -r '[.answer.supported_versions[]? | "\(.major).\(.minor)"] | join(", ")' <<<"$line" 2>/dev/null)
try Query query || {
    printf '%s\n' "${lines[@]}"
    exit $((status < 3 ? 1 : 3))
}
vendor=$(field vendor_identification)
pairs
secrets
left=0
for id in "${made[@]+"${made[@]}"}"; do
    if [[ -z $id ]] || kmip destroy "$id" >"$work/line" 2>&1; then continue; fi
    ((left++))
    lines+=("Destroy of $id: $(reason_of "$(<"$work/line")")")
done
if ((${#made[@]} > left)); then answered+=(Destroy); fi
if ((left)); then refused+=("Destroy of $left objects"); fi

echo '| server | versions | TLS | answered | refused |'
echo '|---|---|---|---|---|'
printf '| %s | %s | %s | %s | %s |\n\n' "${vendor:-no name}" "${versions:-not told}" "$(tls_of)" \
    "$(joined "${answered[@]+"${answered[@]}"}")" "$(joined "${refused[@]+"${refused[@]}"}")"
printf '%s\n' "${lines[@]}"
