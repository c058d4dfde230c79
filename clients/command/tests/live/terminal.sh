# shellcheck shell=bash disable=SC2154
# What is asked for on a terminal, and what is shown there.
fake good
export METSUWAN_CONF=/dev/null METSUWAN_SERVER=$host:$port METSUWAN_CERTIFICATE=$certs/encrypted.pem \
    METSUWAN_KEY=$certs/encrypted.key METSUWAN_AUTHORITY=$authority METSUWAN_SECONDS=$((20 * slack))
on_terminal() { # WHAT TYPED STATUS REGEX WORD..
    "$python" -B "$own/terminal.py" "$2" "$3" "$4" "$kmip" "${@:5}" >"$said" 2>&1
    verdict "$1"
}
on_terminal 'a passphrase is asked for, and not shown' $'geheim & co\n' 0 'operations +Create' query
on_terminal 'a wrong one is told' $'geheim\n' 3 'kmip: .*not its passphrase' query
on_terminal 'Ctrl-C in the prompt: the terminal is as it was' $'\x03' -2 'passphrase: ' query
METSUWAN_CERTIFICATE=$certificate METSUWAN_KEY=$key
on_terminal 'an answer is a table' '' 0 'unique_identifier +k' rename id:k name
on_terminal 'an error is words' '' 2 'kmip: DATA has to be' sign id:k 00
on_terminal 'a password is asked for, and not shown' $'geheim & co\n' 0 'operations +Create' query --user alice
# What a server wrote, which a terminal would act on, is escaped: there, and in a line of JSON that may come to one.
no_sign() { # WHAT
    ! LC_ALL=C grep -qaP '\x1b|\x7f|\xc2[\x80-\x9f]|\xe2\x80\xa8' "$said"
    verdict "$1"
}
fake odd_text
METSUWAN_SERVER=$host:$port
on_terminal "a server's text" '' 1 'kmip: .*\\u\{9b\}.*\\u\{2028\}' query
no_sign 'none of its signs acts on the terminal'
kmip_is 'a line of it' 1 query
says 'has it escaped' '\\u009B.*\\u2028'
no_sign 'and no sign that acts'
