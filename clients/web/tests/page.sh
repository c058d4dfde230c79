#!/bin/bash
# Tests the page of clients/web in real browsers without a window: Chromium and Firefox.
#
#   clients/web/tests/page.sh [--built DIR] [--shots DIR] [--browser NAME]..
#
# The page is taken from DIR, which clients/web/build.sh made before; without it, it is compiled with no proof (a few minutes).
# What each export gives is held to the same code compiled for this machine, and to a reader of KMIP that was written for
# this; then each form of input, whole and damaged; what is shown, found, copied and saved; 16 MB and how long they take;
# what reaches a listener of this machine from within the page; and memory that is refused. A browser that is missing is
# skipped, and it says so with the name of the Debian package. The status is 1 where a check failed.
#
#   --shots DIR      pictures of the page, by Chromium
#   --browser NAME   chromium or firefox; both if none is named
#
# It needs the toolchain's rt, node (20.10 or later), cc and python3.
set -u
here=$(cd "$(dirname "$0")" && pwd)

usage() {
    sed -n '4s/^# */usage: /p' "$0" >&2
    exit 2
}
give_up() { # TEXT
    printf 'page.sh: %s\n' "$*" >&2
    exit 1
}

built='' shots='' browsers=()
while (($#)); do
    case $1 in
    --help) sed -n '2,/^set/{/^set/d;s/^# \{0,1\}//p}' "$0" && exit ;;
    --built | --shots | --browser)
        (($# > 1)) || usage
        case $1 in
        --built) built=$(cd "$2" && pwd) || exit 2 ;;
        --shots) mkdir -p "$2" && shots=$(cd "$2" && pwd) || exit 2 ;;
        --browser)
            [[ $2 == chromium || $2 == firefox ]] || usage
            browsers+=("$2")
            ;;
        esac
        shift
        ;;
    *) usage ;;
    esac
    shift
done
((${#browsers[@]})) || browsers=(chromium firefox)

for tool in 'rt the Rattle toolchain' 'node nodejs' 'cc gcc' 'python3 python3'; do
    type -P "${tool%% *}" >/dev/null || give_up "there is no ${tool%% *} (${tool#* })"
done
options=()
if ! node -e 'process.exit(typeof WebSocket === "function" ? 0 : 1)'; then
    options=(--experimental-websocket)
    node "${options[@]}" -e 0 2>/dev/null || give_up 'this node has no WebSocket: 20.10 or later is needed'
fi

work=$(mktemp -d -t kmip-page-XXXXXX)
trap 'rm -rf "$work"' EXIT
trap 'exit 130' INT TERM
if [[ -z $built ]]; then
    built=$work/built
    "$here/../build.sh" --unproved "$built" || give_up 'no page'
fi
[[ -f $built/kmip.html && -f $built/kmip.wasm && -f $built/kmip.ll && -f $built/build.log ]] || give_up "$built is no folder of clients/web/build.sh"

proved=unproved
if grep -q ': built, and proved$' "$built/build.log"; then proved=proved; fi

# The same code for this machine.
mkdir "$work/page"
cp "$built"/kmip*.html "$built"/kmip*.wasm "$work/page"
tools=$(dirname "$(rt doc)")/toolchain
native() {
    "$tools/bin/clang" --target=x86_64-unknown-linux-gnu --no-default-config -Wno-override-module -O1 -fPIE -c -x ir "$built/kmip.ll" -o "$work/native.o" &&
        cc -O2 -Wall -Wextra -Werror -o "$work/page/native" "$here/native.c" "$work/native.o"
}
native || give_up 'no native program'

status=0
for browser in "${browsers[@]}"; do
    program=''
    for name in "$browser" "$browser-esr"; do [[ -n $program ]] || program=$(type -P "$name"); done
    if [[ -z $program ]]; then
        package=$browser
        [[ $browser == firefox ]] && package=firefox-esr
        printf 'skipped %s: it is not here (Debian: apt-get install %s)\n' "$browser" "$package"
        continue
    fi
    words=("$browser" "$program" "$work/page" "$proved")
    [[ $browser == chromium && -n $shots ]] && words+=("$shots")
    node ${options[@]+"${options[@]}"} "$here/check.js" "${words[@]}" || status=1
done
exit $status
