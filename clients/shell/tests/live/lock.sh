# shellcheck shell=bash
# Two calls at once on one connection: each has its own answer.
fake good
hex() { # TEXT
    printf '%s' "$1" | od -An -tx1 | tr -d ' \n' | tr a-f A-F
}
patience=60 script 'open
    for ((i = 0; i < 12; i++)); do
        kmip_field signature_data sign "a$i" 41 >"$work/a$i" &
        first=$!
        kmip_field signature_data sign "b$i" 42 >"$work/b$i" &
        wait "$first" $!
    done
    kmip_close'
wrong=0
for ((i = 0; i < 12; i++)); do
    [[ $(<"$work/a$i") == $(hex "signature by a$i") ]] || wrong=$((wrong + 1))
    [[ $(<"$work/b$i") == $(hex "signature by b$i") ]] || wrong=$((wrong + 1))
done
printf '%d answers are wrong\n' "$wrong" >>"$said"
((wrong == 0))
verdict 'twelve times two calls at once: each has its own answer'

# The deadline of a call counts from its beginning, also where it waits for another.
fake held
script 'open; kmip sign "$held" 41 >/dev/null & calling
    KMIP_TIMEOUT=1 kmip query; echo "status: $?"
    [[ -n $(jobs -r) ]] && echo in time
    release; wait; kmip query; kmip_close'
says 'a call that waits for another ends with its deadline' '^in time$'
says 'it has status 3' '^status: 3$'
says 'the call that it waited for is not disturbed' '^\{"answer":'
script_is 'a bare wait of the script does not wait for the connection' 0 'open; kmip query; wait; kmip_close'
