# shellcheck shell=bash
# Texts of a server and names that a terminal would act on, and not show: escaped in all that is said.
odd=$'\e\x7f\xc2\x9b\xe2\x80\xae\xe2\x81\xa6\xe2\x80\x8f\xe2\x80\xa8\xef\xbb\xbf' # (by bytes, in any locale)
export odd
acts='[\x00-\x09\x0B-\x1F\x7F]|\xC2[\x80-\x9F\xAD]|\xD8\x9C|\xE1\xA0\x8E|\xE2\x80[\x8B-\x8F\xA8-\xAE]|\xE2\x81[\xA0-\xAF]'
acts+='|\xEF\xBB\xBF|\xEF\xBF[\xB9-\xBB]'
shown() { # WHAT: nothing that was said acts on a terminal, and U+202E is told
    [[ -s $said ]] && ! LC_ALL=C grep -aqP "$acts" "$said"
    verdict "$1: it is escaped"
    says "$1: and told" '\\u202E'
}
fake odd_text
call_is 'a failure with an odd text' 1 activate k
! LC_ALL=C grep -aqP "$acts" "$said"
verdict 'which is escaped'
"$python" - "$said" >parsed 2>&1 <<'PY'
import json
import sys
odd = ''.join(map(chr, range(0x120))) + '\ufeff\uffff\U0010ffff"\\\u2028'
with open(sys.argv[1], encoding='utf-8', newline='\n') as lines:
    assert json.load(lines)['text'].endswith(': ' + odd)
PY
verdict 'and says the same'
fake good
call_is 'an answer with an odd text' 0 sign "$odd" 00
shown 'an answer with an odd text'
script_is 'a field of it' 0 'open; [[ $(kmip_field unique_identifier sign "$odd" 00) == "$odd" ]]; status=$?; kmip_close; exit $status'
call_is 'a call with an odd name' 2 "$odd"
shown 'a call with an odd name'
script_is 'a field with an odd name' 1 'open; kmip_field "\"$odd\"" query; status=$?; kmip_close; exit $status'
shown 'a field with an odd name'
script_is 'a field that is none, with an odd name' 2 'open; kmip_field "a b \"$odd\"" query; status=$?; kmip_close; exit $status'
shown 'a field that is none, with an odd name'
script_is 'a field that is taken from an odd text' 1 \
    'open; kmip_field "unique_identifier | error" sign "$odd" 00; status=$?; kmip_close; exit $status'
shown 'a field that is taken from an odd text'
ln -s /dev/full "$work/$odd"
script_is 'a record with an odd name' 4 'open; KMIP_RECORD=$work/$odd kmip query; status=$?; kmip_close; exit $status'
shown 'a record with an odd name'
for word in "host = .$odd" "port = 1$odd" "certificate = $odd.pem" "key = $odd.key" "authority = /$odd"; do
    (
        printf -v "${word%% =*}" %s "${word#* = }"
        client_run call query >"$said" 2>&1
    )
    shown "an odd ${word%% =*}"
done

# What reads the answer has its time, too.
fake many_objects
script_is 'an answer that nobody reads' 0 'open; { KMIP_TIMEOUT=3; kmip attributes 5000; echo $? >"$work/status"; } |
    until_true test -s "$work/status"; [[ $(<"$work/status") == [34] ]]'
