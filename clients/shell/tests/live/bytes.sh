# shellcheck shell=bash
# Every byte of a request arrives, whatever a block of openssl's input begins with.
fake digest
length=20000
for letter in Q R K k B; do
    data=$(head -c "$length" /dev/zero | tr '\0' "$letter" | tee "$work/data" | od -An -v -tx1 | tr -d ' \n')
    wanted="$length $(sha256sum <"$work/data" | cut -d' ' -f1)"
    export data
    script 'open; kmip_field signature_data sign key "$data"; kmip_close'
    got=$(printf '%b' "$(sed 's/../\\x&/g' "$said")")
    [[ $got == "$wanted" ]]
    verdict "all of $length bytes of $letter are signed"
done
