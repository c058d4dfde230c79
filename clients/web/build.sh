#!/bin/bash
# Builds the page that shows captured KMIP traffic, into a folder.
#
#   clients/web/build.sh [--unproved] [--text FILE] FOLDER
#
#   FOLDER/kmip.html      the page: one file, which works from file:// and asks no network
#   FOLDER/kmip32.html    the same for browsers without 64-bit memory, where there is wasm-opt
#   FOLDER/kmip.ll        what it was compiled from
#
# Without --unproved the crates below kmip_web are taken as `rt ci` proved them on this machine, in any checkout, and what it
# did not is proved now: hours from nothing. kmip_web itself is proved where it is compiled: minutes. FOLDER/build.log shows
# how far that is.
#
#   --unproved      compiles at once, and checks no contract: to try things out. It takes a few minutes
#   --text FILE     takes this kmip.ll, which was made before
#   --help          prints this
#
# It needs the Rattle toolchain's `rt` on the path (README.md says which) and python3; wasm-opt is of Debian's binaryen.
set -eu

give_up() { # TEXT
    printf 'build.sh: %s\n' "$*" >&2
    exit 1
}

usage() {
    sed -n '4s/^# */usage: /p' "$0" >&2
    exit 2
}

unproved='' text='' folder=''
while (($#)); do
    case $1 in
    --help) sed -n '2,/^set/{/^set/d;s/^# \{0,1\}//p}' "$0" && exit ;;
    --unproved) unproved=1 ;;
    --text)
        (($# > 1)) || usage
        [[ -f $2 ]] || give_up "there is no file $2"
        text=$(realpath "$2")
        shift
        ;;
    -*) usage ;;
    *)
        [[ -z $folder && -n $1 ]] || usage
        folder=$1
        ;;
    esac
    shift
done
[[ -n $folder ]] || usage
here=$(cd "$(dirname "$0")" && pwd)
top=$(cd "$here/../.." && pwd)
type -P rt >/dev/null || give_up 'there is no rt (the Rattle toolchain; README.md says where it is from)'
type -P python3 >/dev/null || give_up 'there is no python3 (Debian: apt-get install python3)'
guide=$(rt doc)
tools=$(dirname "$guide")/toolchain
[[ -x $tools/bin/clang ]] || give_up "rt's toolchain has no $tools/bin/clang"
exports=(web_skeleton web_listing web_decode web_report web_fault web_frame web_bytes web_alloc web_free web_reset)

mkdir -p "$folder"
folder=$(cd "$folder" && pwd)
log=$folder/build.log
: >"$log"
work=$(mktemp -d -t kmip-web-XXXXXX)
trap 'rm -rf "$work"' EXIT

step() { # TEXT COMMAND..: a line before and after
    local what=$1 from=$SECONDS
    shift
    printf '%s .. ' "$what"
    if ! "$@" >>"$log" 2>&1; then
        printf 'FAILED\n'
        tail -20 "$log" >&2
        give_up "$log has the whole of it"
    fi
    printf '%d s\n' $((SECONDS - from))
}

# The module for wasm64, with its heap. (`step` asks for its status, so `set -e` ends nothing in it.)
module() {
    local clang=("$tools/bin/clang" --target=wasm64-unknown-unknown -mcpu=lime1 --no-default-config -O3 -c)
    python3 "$here/retarget.py" "$folder/kmip.ll" "$work/kmip.ll" &&
        "${clang[@]}" -Wno-override-module -ffunction-sections -fdata-sections -x ir "$work/kmip.ll" -o "$work/kmip.o" &&
        "${clang[@]}" -Wall -Wextra -ffreestanding -nostdinc "$here/heap.c" -o "$work/heap.o" &&
        (exec -a wasm-ld "$tools/bin/clang" -flavor wasm -mwasm64 --no-entry --stack-first -z stack-size=1048576 --gc-sections --strip-all \
            --export=__heap_base "${exports[@]/#/--export=}" -o "$folder/kmip.wasm" "$work/kmip.o" "$work/heap.o")
}

lowered() { # the same for a memory of 32 bits
    wasm-opt --enable-memory64 --enable-bulk-memory --enable-sign-ext --enable-mutable-globals --enable-nontrapping-float-to-int \
        --enable-multivalue --memory64-lowering -O1 "$folder/kmip.wasm" -o "$folder/kmip32.wasm"
}

# What the page says of its code.
if [[ -n $text ]]; then
    about='Computed here. Whether its code was proved, its build did not see.'
    [[ $text -ef $folder/kmip.ll ]] || cp "$text" "$folder/kmip.ll"
elif [[ -n $unproved ]]; then
    about='Computed here, by code that was compiled with no proof.'
    echo 'Compiled with no proof: a few minutes.'
    step 'kmip_web' python3 "$top/tools/build.py" --unproved module kmip_web "$folder/kmip.ll" "$top"
else
    about='Computed here by proved code.'
    echo "Proved: minutes over what rt ci kept here, hours from nothing. $log shows how far it is."
    step 'kmip_web' python3 "$top/tools/build.py" --proved module kmip_web "$folder/kmip.ll" "$top"
fi
step 'the module' module
step 'kmip.html' python3 "$here/page.py" "$folder/kmip.wasm" "$folder/kmip.html" "$about"
rm -f "$folder/kmip32.html"
if type -P wasm-opt >/dev/null; then
    step 'the module for 32-bit memory' lowered
    step 'kmip32.html' python3 "$here/page.py" "$folder/kmip32.wasm" "$folder/kmip32.html" "$about"
else
    echo 'kmip32.html is left out: there is no wasm-opt (Debian: apt-get install binaryen)'
fi
(cd "$folder" && sha256sum kmip*.html)
