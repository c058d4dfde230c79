# shellcheck shell=bash
# How long a response is, also on a machine with 32 bits, where one of nearly 4 GiB has no length.
try() { # BITS FLAG..
    gcc "${@:2}" -std=c11 -O1 -Wall -Wextra -Wconversion -Werror -I"$top/clients/c" \
        -o "lengths$1" "$top/clients/c/tests/lengths.c" >"$said" 2>&1
    verdict "the test lengths is built for $1 bits"
    "./lengths$1" "$1" 2>"$said"
    verdict "lengths $1 ends well"
}
own_bits=$(getconf LONG_BIT)
try "$own_bits"
if [[ $own_bits == 32 ]]; then
    return
elif links '#include <stdio.h>' -m32 -o it && ./it 2>"$said"; then
    try 32 -m32
else
    echo 'skipped c: there is no gcc -m32 (Debian: apt-get install gcc-multilib): a machine with 32 bits is not tried'
fi
