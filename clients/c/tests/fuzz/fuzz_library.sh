#!/bin/bash
# Calls the library of metsuwan.h with random and odd input, under address and undefined-behaviour sanitizing.
#
#   clients/c/tests/fuzz/fuzz_library.sh [--seed N] [--library FILE] ROUNDS
#
# The library is built with no proof and with its own code instrumented (two to ten minutes). Then fuzz.c makes
# ROUNDS rounds of its calls, with bytes changed at random in buffers of exactly the size that is told; trees.py makes a
# tenth of ROUNDS, with responses that are well formed and changed in structure, and compares kmip_value with the JSON, and
# the answer to any operation, and the plain one, with the payload; and each line of JSON is read by Python. What is found
# ends it with a status other than 0.
#
#   --seed N         another number gives other rounds; 1 if it is not given
#   --library FILE   takes this libkmip_c.a, which `tools/build.py --unproved --sanitize library kmip_c FILE` made before
#
# It needs the toolchain's rt, gcc with its sanitizers, make, python3 and openssl.
set -eu
here=$(cd "$(dirname "$0")" && pwd)
top=$(cd "$here/../../../.." && pwd)

usage() {
    sed -n '4s/^# */usage: /p' "$0" >&2
    exit 2
}
seed=1 library='' rounds=''
while (($#)); do
    case $1 in
    --help) sed -n '2,/^set/{/^set/d;s/^# \{0,1\}//p}' "$0" && exit ;;
    --seed | --library)
        (($# > 1)) || usage
        if [[ $1 == --seed ]]; then seed=$2; else library=$(realpath "$2"); fi
        shift
        ;;
    *)
        [[ -z $rounds && $1 =~ ^[0-9]+$ ]] || usage
        rounds=$1
        ;;
    esac
    shift
done
[[ -n $rounds ]] || usage

work=$(mktemp -d -t kmip-fuzz-XXXXXX)
trap 'rm -rf "$work"' EXIT
trap 'exit 130' INT TERM
if [[ -z $library ]]; then
    library=$work/libkmip_c.a
    python3 "$top/tools/build.py" --unproved --sanitize library kmip_c "$library" "$top"
fi
sanitizers='-fsanitize=address,undefined -fno-sanitize-recover=all'
make -s -C "$top/clients/c" library CORE="$library" OUT="$work" CFLAGS="-O1 -g $sanitizers"
# shellcheck disable=SC2086 # several words
gcc -std=c11 -O1 -g $sanitizers -I"$top/clients/c" -o "$work/fuzz" "$here/fuzz.c" "$work/libmetsuwan.a"

mkdir "$work/corpus"
"$top/tools/live/certs.sh" "$work/certs"
# Python itself is not instrumented: its blocks are those of malloc, and what it does not free is its own.
in_python() { # FILE WORD..
    LD_PRELOAD=$(gcc -print-file-name=libasan.so):$(gcc -print-file-name=libubsan.so) ASAN_OPTIONS=detect_leaks=0 \
        PYTHONMALLOC=malloc PYTHONDONTWRITEBYTECODE=1 LIBMETSUWAN=$work/libmetsuwan.so python3 "$here/$1" "${@:2}"
}
in_python corpus.py "$work/corpus" "$work/certs"
"$work/fuzz" "$work/corpus" "$seed" "$rounds" "$work/lines"
python3 -B "$here/trees.py" --lines "$work/lines"
in_python trees.py "$work/corpus" "$seed" $((rounds / 10))
echo "$rounds rounds, seed $seed: nothing found"
