# shellcheck shell=bash disable=SC2154
# needs: server
# Signatures a second, by the provider and by the library alone: both are shown, and no number fails. More of them are made
# where `--measure N` is given.
make_key 'of the rate' || give_up 'no key'
configure
gcc -std=c11 -O2 -Wall -Wextra -Werror -I"$top/clients/c" -o "$work/rate" "$top/clients/openssl/tests/rate.c" \
    "$top"/clients/c/metsuwan_[!mv]*.c "$built/libmetsuwan.a" -lssl -lcrypto -pthread >"$said" 2>&1
verdict 'the program is built'
timeout $((60 * slack)) "$work/rate" "$host" "$port" "$certificate" "$key" "$authority" "$private" \
    "kmip:id=$private;public-id=$public" "$((${measure:-0} > 0 ? measure : 5))" >"$said" 2>&1
verdict 'both sign, in turn'
sed 's/^/        /' "$said"
