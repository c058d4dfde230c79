# shellcheck shell=bash
# A KMIP client for bash scripts: source this file.
#
#   kmip_open localhost:5696 client.pem client.key ca.pem    one TLS connection, to a server whose certificate is of this
#                                                            authority and names this host
#   kmip create-rsa 2048 issuing issuing-public              {"answer":{"private_key":"2","public_key":"1"}}
#   kmip_field private_key create-rsa 2048 priv pub          2
#   kmip pem 1                                               -----BEGIN RSA PUBLIC KEY-----..
#   kmip_close
#
# `kmip` writes one line of JSON and has the status of kmip_call: 0 answered, 1 refused, 2 no such call, 3 the connection
# is lost, 4 the answer could not be written, 5 out of memory. All calls go over one connection, each by a process of its
# own. Only one is made at a time: a second one, as of a background job, waits. After a status of 3 or more, and after a
# call that was interrupted, the connection is closed, and each later call has status 3, until kmip_open: what comes then
# could be the answer to the call that was given up.
#
# Arguments are plain texts: `kmip rename 4 'issuing key'`. Those of them that the grammar writes with an escape, as a
# space, are written so here; the empty argument is the empty text, or no bytes. Options stand after the others, as in
# `kmip sign 4 00 hash=SHA384 padding=PSS`. An empty identifier is refused (status 2):
# a server may take it for the last object that was made on the connection. `kmip locate NAME` takes its word as a name,
# whatever stands in it; `kmip locate where state=Active type=PrivateKey` asks for attributes.
#
# Each program that the script begins has the connection, too, and could sign by it, or hold it open after the script's end:
# `kmip_without COMMAND WORD..` runs one that has not.
#
# `kmip register-private FILE`, `register-public FILE`, `register-certificate FILE` and `register-secret FILE` register what
# openssl wrote, with `name=..` and `usage=..`; a secret, any bytes, also with `kind=Seed`.
#
# `kmip operation Encrypt '{"tag":"RequestPayload","value":[..]}'` is any operation of KMIP, and `@payload.json` in the place
# of the payload a file that has it. `version=1.1` stands before the payload, where the request is not to be of KMIP 1.2. The
# request has eight random bytes as its Unique Batch Item ID, and an answer with another one or with none is that of another
# call (status 3); `item-id=0102`, also before the payload, is another one.
# `kmip encrypt ID HEX mode=CBC padding=PKCS5 iv=..` and the other calls that `kmip_call --operations` lists are such operations by
# words; the answer is plain JSON, as {"answer":{"unique_identifier":"8","data":"6868"}}: `kmip_field data encrypt ..` is the data.
# `kmip message @message.json` sends a whole message as it stands, and answers the whole response. In the place of hex
# `@data.bin` is a file that has the bytes; `@3` is descriptor 3, up to its end. Payloads, messages and the keys of `register`
# are in no word of a process.
#
# Settings, all optional:
#   KMIP_TIMEOUT     seconds for each call, with connect and handshake; status 3 when they are over. 30 where it is not
#                    set; 0: no deadline
#   KMIP_LIMIT       the most bytes of a response. 1048576 where it is not set; 0: no limit
#   KMIP_USER, KMIP_PASSWORD     a credential; both
#   KMIP_PASSPHRASE, or KMIP_PASSPHRASE_FILE with it as its first line     that of an encrypted key
#   KMIP_RECORD      a file that each call and its response are added to
#   KMIP_CALL        the program, if it is not kmip_call on the path: its path, or words
#
# It needs bash 5.0, openssl 3.0, flock (util-linux), timeout, mkfifo and od (coreutils), sed, /proc, and jq for kmip_field,
# `kmip pem` and `kmip register-private` and its kin.

if ((BASH_VERSINFO[0] < 5)); then
    echo 'kmip.sh: bash 5.0 or later is needed' >&2
    # shellcheck disable=SC2317 # where the file is run, and not sourced
    return 1 2>/dev/null || exit 1
fi

# What is registered, and written as PEM, past the plain kinds is in the file beside this one.
# shellcheck source=clients/shell/kmip_keys.sh
. "${BASH_SOURCE[0]%"${BASH_SOURCE[0]##*/}"}kmip_keys.sh"

# An open connection is
#   KMIP_PID               the process of openssl
#   KMIP_IN, KMIP_OUT      descriptors: its output, which calls read, and its input
#   KMIP_STATE             a file with no name, empty where the connection is good. It is locked for a call, and holds a
#                          word from a call's beginning until it has ended well: so a call that finds it there knows that
#                          the one before was given up, however that ended
#   KMIP_LOG               a file with no name, in which openssl says what is wrong

# Leaves in KMIP_ESCAPES what sed does with a text so that a terminal shows it all: what it would act on, as ESC, C1's controls
# and U+202E, which turns the direction, becomes JSON's escape. Bytes stand for characters, in C's locale. KMIP_ODD has the
# same characters, and KMIP_ODD_AS their escapes.
kmip_make_escapes() {
    local range code bytes odd made
    KMIP_ESCAPES='/[\x01-\x1F\x7F\xC2\xD8\xE1\xE2\xEF]/!b' KMIP_ODD=() KMIP_ODD_AS=()
    for range in 1-31 127-159 173-173 1564-1564 6158-6158 8203-8207 8232-8238 8288-8303 65279-65279 65529-65531; do
        for ((code = ${range%-*}; code <= ${range#*-}; code++)); do
            if ((code < 128)); then
                printf -v bytes '\\x%02X' "$code"
            elif ((code < 2048)); then
                printf -v bytes '\\x%02X\\x%02X' $((192 | code >> 6)) $((128 | code & 63))
            else
                printf -v bytes '\\x%02X\\x%02X\\x%02X' $((224 | code >> 12)) $((128 | code >> 6 & 63)) $((128 | code & 63))
            fi
            printf -v odd %b "$bytes"
            printf -v made '\\u%04X' "$code"
            KMIP_ODD+=("$odd") KMIP_ODD_AS+=("$made")
            KMIP_ESCAPES+=$'\n'"s/$bytes/\\$made/g"
        done
    done
}
kmip_make_escapes

# Copies what is read with these escapes.
kmip_shown() {
    LC_ALL=C sed "$KMIP_ESCAPES" 2>/dev/null
}

# Says a line on standard error, with these escapes.
kmip_says() { # FORMAT TEXT..
    local LC_ALL=C text i
    # shellcheck disable=SC2059 # it is a format
    printf -v text "$@"
    for i in "${!KMIP_ODD[@]}"; do text=${text//"${KMIP_ODD[i]}"/"${KMIP_ODD_AS[i]}"}; done
    printf '%s\n' "$text" >&2
}

# Leaves in KMIP_WORD the word that stands for a text in a call: what is special is written as % and two hex digits.
kmip_escape() { # TEXT
    local LC_ALL=C text=$1 at
    KMIP_WORD=$text
    case $text in
    '') KMIP_WORD=- ;;
    -) KMIP_WORD=%2D ;;
    *[!A-Za-z0-9._~-]*)
        KMIP_WORD=
        # In pieces, since bash takes each byte of a text by going through it from its front.
        for ((at = 0; at < ${#text}; at += 250)); do kmip_escape_piece "${text:at:250}"; done
        ;;
    esac
}

# Adds a piece of a text to KMIP_WORD, in C's locale.
kmip_escape_piece() { # TEXT
    local byte i word=''
    for ((i = 0; i < ${#1}; i++)); do
        byte=${1:i:1}
        case $byte in
        [A-Za-z0-9._~-]) ;;
        *) printf -v byte %d "'$byte" && printf -v byte %%%02X $((byte & 255)) ;;
        esac
        word+=$byte
    done
    KMIP_WORD+=$word
}

# Leaves in KMIP_OPTIONS the options that a call may have, with a space round each, and in KMIP_PLAIN how many words stand
# before them.
kmip_options() { # CALL
    # clients/grammar.py: calls
    local attributes=' name group contact type state algorithm length activation '
    KMIP_PLAIN=1 KMIP_OPTIONS=''
    case $1 in
    create-rsa) KMIP_PLAIN=3 KMIP_OPTIONS=' private-usage public-usage ' ;;
    create) KMIP_PLAIN=3 KMIP_OPTIONS=' usage ' ;;
    register) KMIP_PLAIN=2 KMIP_OPTIONS=' format algorithm length usage name ' ;;
    locate) KMIP_OPTIONS=$attributes ;;
    attribute-add) KMIP_OPTIONS=$attributes ;;
    attribute-modify) KMIP_OPTIONS=$attributes'index ' ;;
    attribute-delete) KMIP_PLAIN=2 KMIP_OPTIONS=' index ' ;;
    sign) KMIP_PLAIN=2 KMIP_OPTIONS=' hash padding algorithm prehashed ' ;;
    get) KMIP_OPTIONS=' format wrap ' ;;
    revoke) KMIP_OPTIONS=' reason message since ' ;;
    esac
    # clients/grammar.py: end
}

# Whether `kmip_call --operations` lists a call of this name; and the same for its options.
kmip_is_of_table() { # CALL
    # clients/grammar.py: operations
    case $1 in
    encrypt | decrypt) KMIP_PLAIN=2 KMIP_OPTIONS=" mode padding hash role signature-algorithm algorithm random-iv \
                                                   iv-length tag-length fixed-field-length \
                                                   invocation-field-length counter-length initial-counter iv " ;;
    mac) KMIP_PLAIN=2 KMIP_OPTIONS=" mode padding hash role signature-algorithm algorithm random-iv iv-length \
                                     tag-length fixed-field-length invocation-field-length counter-length \
                                     initial-counter " ;;
    mac-verify | verify) KMIP_PLAIN=3 KMIP_OPTIONS=" mode padding hash role signature-algorithm algorithm \
                                                     random-iv iv-length tag-length fixed-field-length \
                                                     invocation-field-length counter-length initial-counter " ;;
    hash) KMIP_OPTIONS=" hash " ;;
    derive-key) KMIP_PLAIN=2 KMIP_OPTIONS=" type also mode padding hash cipher iv data salt iterations algorithm \
                                            length usage name " ;;
    rekey | rekey-pair) KMIP_OPTIONS=" offset " ;;
    certify) KMIP_OPTIONS=" request-type request name " ;;
    recertify) KMIP_OPTIONS=" request-type request offset name " ;;
    create-ec) KMIP_PLAIN=3 KMIP_OPTIONS=" algorithm length private-usage public-usage " ;;
    create-pair) KMIP_PLAIN=4 KMIP_OPTIONS=" private-usage public-usage " ;;
    create-key) KMIP_PLAIN=3 KMIP_OPTIONS=" usage " ;;
    check) KMIP_OPTIONS=" count usage lease " ;;
    attribute-list | lease | usage-allocation | archive | recover | validate | cancel | poll | rng-seed) ;;
    *) return 1 ;;
    esac
    # clients/grammar.py: end
}

# Whether all these words are options, as NAME=TEXT.
kmip_are_options() { # WORD..
    local word
    for word in "$@"; do
        [[ $word == prehashed || $word =~ ^[a-z-]+= ]] && [[ $KMIP_OPTIONS == *" ${word%%=*} "* ]] || return 1
    done
}

# Leaves in KMIP_WORD the word that an option is: its value is escaped, but for the `,` between the names of uses.
kmip_escape_option() { # NAME=TEXT
    local name=${1%%=*}
    if [[ $1 != *=* ]]; then
        KMIP_WORD=$1
    elif [[ $name == *usage && ${1#*=} =~ ^[A-Za-z0-9_,]+$ ]]; then
        KMIP_WORD=$1
    else
        kmip_escape "${1#*=}"
        KMIP_WORD=$name=$KMIP_WORD
    fi
}

# The same on standard output.
kmip_word() { # TEXT
    local KMIP_WORD
    kmip_escape "$1"
    printf '%s\n' "$KMIP_WORD"
}

# Leaves in KMIP_WORDS the words of a call whose last word is JSON, which kmip_call gets by a descriptor, or @FILE with a file
# that it reads: they are no texts, and stand as they are.
kmip_json_words() { # CALL WORD..
    KMIP_WORDS=("$@")
    if (($# < 2)) || [[ ${!#} == @* ]]; then return 0; fi
    KMIP_GIVEN=${!#} KMIP_GIVES=json
    KMIP_WORDS[$# - 1]=@3
}

# Leaves in KMIP_ID a Unique Batch Item ID, as a word of a call: eight random bytes, which no answer to another call has. Where
# the system has none, KMIP_LACKS says so.
kmip_new_id() {
    KMIP_ID=$(od -An -N8 -tx1 /dev/urandom) || KMIP_ID=''
    KMIP_ID=${KMIP_ID//[!0-9a-f]/}
    ((${#KMIP_ID} == 16)) || KMIP_LACKS='no random bytes for the Unique Batch Item ID: od reads none in /dev/urandom'
    KMIP_ID=item-id=$KMIP_ID
}

# Adds a Unique Batch Item ID to the words of an operation, behind its name, where they have none.
kmip_item_id() {
    local word KMIP_ID
    # (fewer words are no operation, and the last one is its payload)
    ((${#KMIP_WORDS[@]} > 2)) || return 0
    for word in "${KMIP_WORDS[@]:2:${#KMIP_WORDS[@]}-3}"; do
        if [[ $word == item-id=* ]]; then return 0; fi
    done
    kmip_new_id
    KMIP_WORDS=("${KMIP_WORDS[@]:0:2}" "$KMIP_ID" "${KMIP_WORDS[@]:2}")
}

# The same for bytes in hex, which stand behind so many words: kmip_call reads @FILE, or gets them by a descriptor where they
# may be those of a key. What is no hex is not shown, since it may be a key's all the same, and is no hex by another word.
kmip_bytes_word() { # PLACE CALL WORD..
    local hex=${*:2+$1:1}
    (($# > $1 + 1)) || return 0
    if [[ $hex == @* ]]; then
        KMIP_WORDS[$1]=$hex
    elif [[ $2 == sign || -z $hex || $hex == - ]]; then
        return 0
    elif [[ $hex == *[!0-9A-Fa-f]* ]] || ((${#hex} % 2)); then
        KMIP_WORDS[$1]=none
    else
        KMIP_GIVEN=$hex KMIP_GIVES=bytes
        KMIP_WORDS[$1]=@3
    fi
}

# Writes what kmip_call gets by a descriptor. Whoever reads may end before.
kmip_give() {
    export -n KMIP_GIVEN
    case $KMIP_GIVES in
    json) printf %s "$KMIP_GIVEN" ;;
    bytes) printf %b "$(printf %s "$KMIP_GIVEN" | sed 's/../\\x&/g')" ;;
    esac 2>/dev/null
}

# Whether Linux takes each of these words, for a program. Where it does not, it says so, and its status is 2.
kmip_fit() { # WORD..
    local LC_ALL=C word
    for word in "$@"; do
        ((${#word} <= 131071)) && continue
        kmip_fails GrammarError 'a word of the call has more than 131071 bytes, the most that Linux takes; nothing was sent'
        return 2
    done
}

# Leaves in KMIP_WORDS the words of a call, as kmip_call is to get them. Where they are none, it says so, and its status is 2.
kmip_words() { # CALL WORD..
    local word is_of_table=false KMIP_WORD KMIP_OPTIONS KMIP_PLAIN KMIP_ID
    case ${1-} in
    operation)
        kmip_json_words "$@"
        kmip_item_id
        return
        ;;
    message)
        kmip_json_words "$@"
        return
        ;;
    esac
    KMIP_WORDS=("${1-}")
    kmip_options "${1-}"
    if kmip_is_of_table "${1-}"; then is_of_table=true; fi
    # One word behind `locate` is a name, also with a `=`; before two attributes or more `where` may be left out.
    if [[ ${1-} == locate && ${2-} != where ]]; then KMIP_PLAIN=0; fi
    if [[ ${1-} == locate ]] && (($# < 3)) || ! kmip_are_options "${@:2+KMIP_PLAIN}"; then
        KMIP_PLAIN=$#
    fi
    for word in "${@:2:KMIP_PLAIN}"; do
        kmip_escape "$word"
        KMIP_WORDS+=("$KMIP_WORD")
    done
    for word in "${@:2+KMIP_PLAIN}"; do
        kmip_escape_option "$word"
        KMIP_WORDS+=("$KMIP_WORD")
    done
    case ${1-} in
    raw | hash | rng-seed | cancel | poll) kmip_bytes_word 1 "$@" ;;
    sign | register | encrypt | decrypt | mac | mac-verify | verify) kmip_bytes_word 2 "$@" ;;
    esac
    # (the code and the signature that are verified are no secret)
    if [[ ${1-} == mac-verify || ${1-} == verify ]] && [[ ${4-} == @* ]]; then
        KMIP_WORDS[3]=$4
        # By descriptor 3 kmip_call gets the data, and would take their end for the code.
        if [[ $4 == @3 && -n $KMIP_GIVES ]]; then
            KMIP_WORDS[3]=$(kmip_hex 2>/dev/null <&3) || KMIP_WORDS[3]=none
            KMIP_WORDS[3]=${KMIP_WORDS[3]:--}
        fi
    fi
    if $is_of_table; then
        kmip_new_id
        KMIP_WORDS=("$KMIP_ID" "${KMIP_WORDS[@]}")
    fi
}

# One line of JSON for a failure that kmip_call cannot tell of.
kmip_fails() { # ERROR TEXT
    printf '{"error":"%s","text":"%s"}\n' "$1" "$2"
}

# Leaves in KMIP_WORDS the words that run kmip_call.
kmip_program() {
    KMIP_WORDS=("${KMIP_CALL:-kmip_call}")
    [[ -n ${KMIP_CALL-} && ! -x $KMIP_CALL ]] || return 0
    IFS=$' \t' read -ra KMIP_WORDS <<<"$KMIP_CALL"
}

# Says on standard error what is missing for a connection; its status is 0 where nothing is.
kmip_can_open() { # CERTIFICATE KEY AUTHORITY
    local file missing='' KMIP_WORDS
    for file in "$@" ${KMIP_PASSPHRASE_FILE:+"$KMIP_PASSPHRASE_FILE"}; do
        [[ -r $file && ! -d $file ]] || missing+="cannot read $file; "
    done
    for file in "$1" "$3"; do
        # openssl would ask the terminal for its passphrase.
        if [[ -f $file ]] && grep -qs '^Proc-Type:.*ENCRYPTED' "$file"; then missing+="a block of $file is encrypted; "; fi
    done
    if [[ -z ${KMIP_PASSPHRASE+set}${KMIP_PASSPHRASE_FILE-} ]] && grep -qs ENCRYPTED "$2"; then
        missing+="$2 is encrypted: KMIP_PASSPHRASE or KMIP_PASSPHRASE_FILE has to be set; "
    fi
    kmip_program
    type -P "${KMIP_WORDS[0]}" >/dev/null ||
        missing+="there is no program ${KMIP_WORDS[0]}: clients/build.sh makes kmip_call, for the path or KMIP_CALL; "
    type -P flock >/dev/null || missing+='there is no flock (Debian: util-linux); '
    if ! type -P openssl >/dev/null; then
        missing+='there is no openssl; '
    elif ! openssl s_client -help 2>&1 | grep -q -e -nocommands; then
        missing+="$(openssl version) is too old: 3.0 is needed; "
    fi
    [[ -z $missing ]] || kmip_says 'kmip_open: %s' "${missing%; }"
    [[ -z $missing ]]
}

# Leaves in KMIP_WORDS the words of `openssl s_client`. -nocommands: without it a block of input that begins with Q, R, K
# or k is a command, and lost. -pass: without it openssl asks the terminal. Descriptors 8 and 9 are kmip_carry's. By the
# protocol and the ciphers, no openssl.cnf lets a server in that has no certificate or encrypts nothing.
kmip_client_words() { # HOST:PORT CERTIFICATE KEY AUTHORITY
    local host=${1%:*}
    host=${host#[} host=${host%]} host=${host%.}
    KMIP_WORDS=(s_client -quiet -verify_quiet -no_ign_eof -nocommands -connect "$1" -verify_return_error
        -cert "$2" -key "$3" -CAfile "$4" -no-CApath -no-CAstore -partial_chain -no_renegotiation
        -min_protocol TLSv1.2 -cipher 'DEFAULT:!aNULL:!eNULL:!PSK:!SRP'
        -ciphersuites TLS_AES_256_GCM_SHA384:TLS_CHACHA20_POLY1305_SHA256:TLS_AES_128_GCM_SHA256)
    if [[ $host =~ ^[0-9.]+$ || $host == *:* ]]; then
        KMIP_WORDS+=(-verify_ip "$host" -noservername)
    else
        KMIP_WORDS+=(-verify_hostname "$host" -servername "$host")
    fi
    if (($(grep -c -e '-BEGIN .*CERTIFICATE-' "$2") > 1)); then KMIP_WORDS+=(-cert_chain /dev/fd/8); fi
    if [[ -n ${KMIP_PASSPHRASE+set} ]]; then
        KMIP_WORDS+=(-pass fd:9)
    elif [[ -n ${KMIP_PASSPHRASE_FILE-} ]]; then
        KMIP_WORDS+=(-pass "file:$KMIP_PASSPHRASE_FILE")
    else
        KMIP_WORDS+=(-pass pass:)
    fi
}

# Becomes openssl, between the two descriptors. The passphrase is in no word and no environment.
kmip_carry() { # FROM TO LOG CERTIFICATE
    export -n KMIP_PASSPHRASE KMIP_PASSWORD
    exec openssl "${KMIP_WORDS[@]}" <&"$1" >&"$2" 2>&"$3" 9<<<"${KMIP_PASSPHRASE-}" \
        8< <(awk '/-BEGIN .*CERTIFICATE-/ { n++; within = 1 } within && n > 1; /-END / { within = 0 }' "$4") \
        {KMIP_IN}<&- {KMIP_OUT}>&- {KMIP_STATE}>&- {KMIP_LOG}<&-
}

# Whether it is a port, by its number or by its name in /etc/services. A number past the last one would be taken modulo
# 65536, for another port.
kmip_is_port() { # PORT
    if [[ $1 == *[A-Za-z]* ]]; then return 0; fi
    [[ $1 =~ ^[0-9]{1,5}$ ]] && ((10#$1 >= 1 && 10#$1 <= 65535))
}

# Opens the connection: 0, 2 where the words are none, or 3 where there is none. The reason is on standard error.
kmip_open() { # HOST:PORT CERTIFICATE KEY AUTHORITY
    if (($# != 4)) || [[ $1 != ?*:?* ]]; then
        echo 'usage: kmip_open HOST:PORT CERTIFICATE KEY AUTHORITY' >&2
        return 2
    fi
    if [[ $1 == .* ]]; then
        # openssl would take it for any name below it.
        kmip_says 'kmip_open: %s is no host' "${1%:*}"
        return 2
    fi
    if ! kmip_is_port "${1##*:}"; then
        kmip_says 'kmip_open: %s is no port: a number of 1 to 65535, or the name of a service' "${1##*:}"
        return 2
    fi
    if [[ -n ${KMIP_PID-} ]] && ! kmip_is_lost; then
        echo 'kmip_open: a connection is open; kmip_close it' >&2
        return 2
    fi
    kmip_close
    local KMIP_WORDS=() file
    # A path that begins with a sign is taken for no option by the tools, and none for an address.
    for file in "${@:2}"; do
        if [[ $file != /* ]]; then file=./$file; fi
        KMIP_WORDS+=("$file")
    done
    set -- "$1" "${KMIP_WORDS[@]}"
    kmip_can_open "${@:2}" || return 3
    local folder from to both log try
    if ! { folder=$(mktemp -d) && mkfifo "$folder/in" "$folder/out"; }; then return 3; fi
    # Each pipe is opened at both ends first, so that no opening waits for the other end. Their files are removed: the
    # end of the shell is the end of the connection, and nothing is left.
    # shellcheck disable=SC2094 # the two ends of a pipe
    if ! exec {both}<>"$folder/in" {KMIP_IN}<"$folder/in" {to}>"$folder/in" {both}>&- \
        {both}<>"$folder/out" {from}<"$folder/out" {KMIP_OUT}>"$folder/out" {both}>&- \
        {KMIP_STATE}<>"$folder/state" {log}>>"$folder/log" {KMIP_LOG}<"$folder/log"; then
        rm -rf "$folder"
        return 3
    fi
    rm -rf "$folder"
    kmip_client_words "$@"
    { kmip_carry "$from" "$to" "$log" "$2" & } 2>/dev/null
    KMIP_PID=$!
    # It is no job of the script: a bare `wait` does not wait for it.
    disown "$KMIP_PID" 2>/dev/null || :
    for ((try = 0; try < 500; try++)); do
        if kmip_lives || [[ ! -e /proc/$KMIP_PID ]]; then break; fi
        sleep 0.01
    done
    exec {from}<&- {to}>&- {log}>&-
}

# Whether openssl carries the connection: its input is the other end of our output. So it is no other process that has
# got its number since.
kmip_lives() {
    [[ /proc/$KMIP_PID/fd/0 -ef /proc/self/fd/$KMIP_OUT ]]
}

# Ends openssl.
kmip_end() {
    if kmip_lives; then kill "$KMIP_PID" 2>/dev/null || :; fi
}

# Whether the connection is lost. While a call is made on it, it is not.
kmip_is_lost() {
    local mine status=1
    if ! kmip_lives || ! exec {mine}<>"/proc/self/fd/$KMIP_STATE"; then return 0; fi
    if flock -n "$mine" && [[ -s /proc/self/fd/$mine ]]; then status=0; fi
    exec {mine}>&-
    return $status
}

# Says on standard error what openssl said: why a certificate is refused, or there is no connection.
kmip_reasons() {
    sed -nE 's/^verify error:num=[0-9]+:/kmip: certificate: /p
        s/^[0-9A-F]+:error:[^:]*:[^:]*:[^:]*:([^:]*):[^:]*:[0-9]*:(.+)/kmip: openssl: \1 (\2)/p
        s/^[0-9A-F]+:error:[^:]*:[^:]*:[^:]*:([^:]*):[^:]*:[0-9]*:$/kmip: openssl: \1/p
        s/^(Could|Can.t|Error) .*/kmip: openssl: &/p' "/proc/self/fd/$KMIP_LOG" | sort -u | kmip_shown >&2
}

# Ends the connection for a reason, whose line it writes; the status is that of a connection that is lost.
kmip_lose() { # ERROR TEXT
    kmip_end
    kmip_fails "$@"
    kmip_reasons
    return 3
}

# Ends the connection since an answer cannot be written, which it says on standard error; the status is 4.
kmip_not_written() { # TEXT
    kmip_end
    kmip_says 'kmip: %s' "$1"
    return 4
}

# Locks the connection for a call, by the descriptor KMIP_MINE, and leaves in KMIP_SECONDS what is left of its deadline.
kmip_lock() {
    local from=${EPOCHREALTIME/[^0-9]/} left=$KMIP_DEADLINE
    exec {KMIP_MINE}<>"/proc/self/fd/$KMIP_STATE" || return
    kmip_seconds "$left"
    if ((left == 0)); then
        flock "$KMIP_MINE"
        return
    fi
    # In C's locale, since flock reads a number by the locale's rules.
    LC_ALL=C flock -w "$KMIP_SECONDS" "$KMIP_MINE" || return
    left=$((left + from - ${EPOCHREALTIME/[^0-9]/}))
    kmip_seconds $((left > 0 ? left : 1))
}

# Leaves in KMIP_SECONDS so many microseconds, as seconds.
kmip_seconds() { # MICROSECONDS
    printf -v KMIP_SECONDS '%d.%06d' $(($1 / 1000000)) $(($1 % 1000000))
}

# Makes one call, in a shell of its own, whose end unlocks the connection.
kmip_make() { # WORD..
    local status shown KMIP_MINE KMIP_SECONDS
    if ! kmip_lock; then
        kmip_fails RequestWriteError 'another call is made on the connection; nothing was sent'
        return 3
    fi
    if [[ -s /proc/self/fd/$KMIP_MINE ]]; then
        kmip_lose RequestWriteError 'the connection was given up; nothing was sent; kmip_open opens a new one'
        return
    fi
    # What cannot be written is to be an error of what writes it, and not its end.
    trap '' PIPE XFSZ
    if ! { printf 'a call is made\n' >&"$KMIP_MINE"; } 2>/dev/null || [[ ! -s /proc/self/fd/$KMIP_MINE ]]; then
        # A call that is given up after this would not be known to be.
        kmip_lose RequestWriteError 'it cannot be noted in TMPDIR that a call is made; nothing was sent'
        return
    fi
    if ! kmip_lives; then
        kmip_lose RequestWriteError 'there is no connection; nothing was sent; kmip_open opens a new one'
        return
    fi
    if [[ -n $KMIP_LACKS ]]; then
        kmip_lose RequestWriteError "$KMIP_LACKS; nothing was sent"
        return
    fi
    if read -r -t 0 -u "$KMIP_IN"; then
        kmip_lose RequestWriteError \
            'the connection ended, or bytes came that no call had asked for; nothing was sent; kmip_open opens a new one'
        return
    fi
    trap 'kmip_end; trap - INT; kill -INT "$BASHPID"' INT
    # (who reads the answer may never do so: that too has its time)
    timeout --foreground -k 1 "$KMIP_SECONDS" "$@" 2>&1 <&"$KMIP_IN" >&"$KMIP_OUT" |
        LC_ALL=C timeout --foreground -k 1 "$KMIP_SECONDS" sed "$KMIP_ESCAPES" 2>/dev/null
    status=${PIPESTATUS[0]} shown=${PIPESTATUS[1]}
    if ((status <= 2 && shown > 0)); then status=4; fi
    case $status in
    0 | 1 | 2) : >|"/proc/self/fd/$KMIP_MINE" ;;
    3 | 5) kmip_end && kmip_reasons ;;
    4) kmip_not_written "the answer${KMIP_RECORD:+, or its record in $KMIP_RECORD,} cannot be written" || status=$? ;;
    124) kmip_lose ResponseReadError "no whole response within ${KMIP_TIMEOUT:-30} seconds" ;;
    126 | 127) kmip_lose RequestWriteError "kmip_call cannot be run: status $status" ;;
    *) kmip_lose ResponseReadError "kmip_call was ended: status $status" ;;
    esac
    ((status <= 5)) || status=3
    return "$status"
}

# Leaves in KMIP_DEADLINE the microseconds of KMIP_TIMEOUT.
kmip_deadline() {
    [[ ${KMIP_TIMEOUT:-30} =~ ^([0-9]{1,9})([.]([0-9]{1,6}))?$ ]] || return 1
    local fraction=${BASH_REMATCH[3]-}000000
    KMIP_DEADLINE=$((10#${BASH_REMATCH[1]} * 1000000 + 10#${fraction:0:6}))
}

# Makes a call, and writes its answer. `pem` and `register-..` are calls of this file's own.
kmip() { # CALL WORD..
    case ${1-} in
    pem) kmip_pem "${@:2}" ;;
    register-private | register-public | register-certificate | register-secret) kmip_register "${1#register-}" "${@:2}" ;;
    register) kmip_not_pem "${@:3}" && kmip_once "$@" ;;
    *) kmip_once "$@" ;;
    esac
}

# Whether no word is the hex digits of PEM, or @FILE with a file of it: it would be kept as the bytes of a key. Where one is, the
# status is 2.
kmip_not_pem() { # WORD..
    local word
    for word in "$@"; do
        if [[ $word == @* && -f ${word#@} && -r ${word#@} ]]; then word=$(head -c 999 -- "${word#@}" | kmip_hex); fi
        [[ $word =~ ^(0[9A-Da-d]|20)*2[Dd]2[Dd]2[Dd]2[Dd]2[Dd]424547494[Ee]20 ]] || continue
        kmip_fails GrammarError 'the key is PEM: kmip register-private and register-public take it'
        return 2
    done
}

# The same for a call of kmip_call.
kmip_once() { # CALL WORD..
    local words=() status=0 KMIP_WORDS KMIP_DEADLINE KMIP_GIVEN='' KMIP_GIVES='' KMIP_LACKS=''
    if [[ ! -e /proc/self/fd/1 ]]; then
        echo 'kmip: standard output is closed; nothing was sent' >&2
        return 4
    fi
    if [[ -z ${KMIP_PID-} ]]; then
        kmip_fails RequestWriteError 'no connection is open; kmip_open opens one'
        return 3
    fi
    if ! kmip_deadline; then
        kmip_fails GrammarError 'KMIP_TIMEOUT is no number of seconds'
        return 2
    fi
    if [[ ${KMIP_USER+set} != "${KMIP_PASSWORD+set}" ]]; then
        kmip_fails GrammarError 'a credential is a user and a password: KMIP_USER and KMIP_PASSWORD'
        return 2
    fi
    if [[ -n ${KMIP_USER+set} ]]; then words+=("user=$KMIP_USER"); fi
    words+=("limit=${KMIP_LIMIT:-1048576}")
    if [[ -n ${KMIP_RECORD-} ]]; then words+=("record=$KMIP_RECORD"); fi
    kmip_words "$@" || return
    words+=("${KMIP_WORDS[@]}")
    kmip_fit "${words[@]}" || return
    kmip_program
    (
        export -n KMIP_PASSPHRASE
        if [[ -n ${KMIP_PASSWORD+set} ]]; then export KMIP_PASSWORD; fi
        if [[ -n $KMIP_GIVES ]]; then
            exec 3< <(kmip_give)
            export -n KMIP_GIVEN
        fi
        kmip_make "${KMIP_WORDS[@]}" "${words[@]}"
    ) || status=$?
    if ((status > 5)); then
        kmip_lose ResponseReadError 'the call was interrupted' || status=$?
    fi
    return $status
}

# Leaves in KMIP_FIELD the program of jq that finds a field. Its status is 8 where what it finds is another, were the numbers
# others that jq would round, and 9 where it finds nothing. No field ends jq without a word, as by `halt`.
kmip_field_program() { # FIELD
    KMIP_FIELD="def give_up(\$status): \"\" | halt_error(\$status);
        def halt: error(\"halt is no field\"); def halt_error: halt; def halt_error(status): halt;
        def is_rounded: type == \"number\" and (. >= 9007199254740992 or . <= -9007199254740992);
        def found: [.answer.$1];
        found as \$found | if any(..; is_rounded) and \$found != (try (walk(if is_rounded then 0 else . end) | found) catch 0)
        then give_up(8) elif all(\$found[]; . == null) then give_up(9) else \$found[] end"
}

# Whether the answer to a call names what it has made, and has nothing that is secret.
kmip_makes() { # CALL WORD..
    case $1.${2-} in
    create.* | create-*.* | register.* | register-*.*) return 0 ;;
    derive-key.* | certify.* | recertify.* | rekey.* | rekey-pair.*) return 0 ;;
    operation.Create | operation.CreateKeyPair | operation.Register | operation.DeriveKey) return 0 ;;
    operation.Certify | operation.Recertify | operation.Rekey | operation.RekeyKeyPair) return 0 ;;
    *) return 1 ;;
    esac
}

# Writes the field of an answer, by the program KMIP_FIELD. What jq says may have a part of the answer.
kmip_find() { # ANSWER
    local out told status=0
    [[ -e /proc/self/fd/1 ]] || return 2
    exec {out}>&1
    told=$(jq -r "$KMIP_FIELD" 2>&1 >&"$out" < <(printf '%s\n' "$1")) || status=$?
    exec {out}>&-
    [[ -z $told ]] || printf '%s\n' "$told" | kmip_shown >&2
    return "$status"
}

# Makes a call, and writes one field of its answer, as unique_identifier or operations[0]. An error goes to standard error.
# A field that is false is one; one that is null is none, and so is what would be another without the rounding of jq. What is
# said of an answer shows nothing of it, since that may be a key; but the identifiers of what a call has made are not lost. The
# field is read before the call is made.
kmip_field() { # FIELD CALL WORD..
    local field=${1-} answer told status=0 KMIP_FIELD
    kmip_field_program "$field"
    kmip_has_jq || return
    if ! told=$(jq "$KMIP_FIELD" 2>&1 >/dev/null </dev/null); then
        printf '%s\n' "$told" | kmip_shown >&2
        kmip_fails GrammarError 'jq does not read the field, for the reason before; nothing was sent' >&2
        return 2
    fi
    answer=$(kmip "${@:2}") || status=$?
    if ((status != 0)); then
        printf '%s\n' "$answer" >&2
        return $status
    fi
    kmip_find "$answer" || status=$?
    case $status in
    0) return 0 ;;
    8) kmip_fails MissingValue 'the field has a number that jq cannot keep, 2^53 or past it; kmip shows it' >&2 ;;
    9) jq -nc --arg field "$field" '{error: "MissingValue", text: ("the answer has no " + $field)}' | kmip_shown >&2 || : ;;
    3 | 5) kmip_fails MissingValue 'jq does not find the field, for the reason before' >&2 ;;
    *) kmip_not_written 'the field cannot be written' || status=4 ;;
    esac
    if kmip_makes "${@:2}"; then printf '%s\n' "$answer" >&2; fi
    return $((status == 4 ? 4 : 1))
}

# Whether there is jq. Where there is none, it says so on standard error, and its status is 2.
kmip_has_jq() {
    type -P jq >/dev/null && return
    kmip_fails GrammarError 'there is no jq (Debian: apt-get install jq); nothing was sent' >&2
    return 2
}

# What an object of this type and format is called in PEM: the labels of RFC 7468, and OpenSSL's own for PKCS#1 and SEC 1.
kmip_pem_label() { # TYPE FORMAT
    case $1.$2 in
    PublicKey.PKCS1) echo 'RSA PUBLIC KEY' ;;
    PublicKey.X509) echo 'PUBLIC KEY' ;;
    PrivateKey.PKCS1) echo 'RSA PRIVATE KEY' ;;
    PrivateKey.PKCS8) echo 'PRIVATE KEY' ;;
    PrivateKey.ECPrivateKey) echo 'EC PRIVATE KEY' ;;
    Certificate.X509) echo CERTIFICATE ;;
    *) return 1 ;;
    esac
}

# Gets an object, and writes it as PEM. An error goes to standard error. A key is in no word of a process.
kmip_pem() { # IDENTIFIER
    local answer type format bytes label status=0 KMIP_WORD='' KMIP_FORMAT=''
    kmip_has_jq || return
    answer=$(kmip get "$@") || status=$?
    if ((status != 0)); then
        printf '%s\n' "$answer" >&2
        return $status
    fi
    IFS=$'\t' read -r type format bytes < <(printf '%s\n' "$answer" | jq -r 'def at($t): (.value[]? | select(.tag == $t));
        .answer | if .tag then at("ObjectType").value as $type | at($type) | [$type] + if $type == "Certificate" then
            [at("CertificateType").value, at("CertificateValue").value] else at("KeyBlock") |
            [at("KeyFormatType").value, (at("KeyValue") | at("KeyMaterial").value | if type == "string" then . else "" end)] end
        else .object_type as $type | .cryptographic_object[$type] | [$type] + if $type == "Certificate" then
            [.certificate_type, .certificate_value]
            else [.key_block.key_format_type, (.key_block.key_value.key_material.Bytes? // "")] end end | @tsv') || :
    # KMIP's encodings put a sign for others, as in PKCS_8.
    format=${format//_/}
    if [[ -z $bytes && $format == Transparent* ]]; then
        kmip_parts "$format" "$answer"
        bytes=$KMIP_WORD format=${format/#Transparent*/$KMIP_FORMAT}
    fi
    if [[ -z $bytes ]] || ! label=$(kmip_pem_label "$type" "$format"); then
        kmip_fails MissingValue 'the answer has no PEM form' >&2
        return 1
    fi
    # Each two hex digits become the escape of a byte.
    if ! bytes=$(printf %b "$(printf %s "$bytes" | sed 's/../\\x&/g')" | base64 -w 64) ||
        ! printf -- '-----BEGIN %s-----\n%s\n-----END %s-----\n' "$label" "$bytes" "$label" 2>/dev/null; then
        kmip_not_written 'the PEM cannot be written'
    fi
}

# Runs a command in a shell of its own that has not the connection, and no secret of it in its environment.
kmip_without() { # COMMAND WORD..
    (
        kmip_leave
        export -n KMIP_PASSWORD KMIP_PASSPHRASE
        "$@"
    )
}

# Closes what this shell has of the connection.
kmip_leave() {
    if [[ -n ${KMIP_PID-} ]]; then exec {KMIP_IN}<&- {KMIP_OUT}>&- {KMIP_STATE}>&- {KMIP_LOG}<&-; fi
    unset KMIP_IN KMIP_OUT KMIP_STATE KMIP_LOG KMIP_PID
}

# Ends the connection.
kmip_close() {
    if [[ -n ${KMIP_PID-} ]]; then kmip_end; fi
    kmip_leave
}
