#!/bin/bash
# Tries the wrong bodies of wrong_bodies/: the contracts of their crates must refuse each.
#
#   tools/wrong_bodies.sh [NAME..]
#
# NAME is a crate that has a folder of them; without one all of them are tried. They are written as those of
# crates/NAME/must-fail/, which `rt ci` tries, and stand apart from it since each crate with such edits is checked once
# more. This tries them with `rt must-fail` in a copy of the crates that are needed, and writes nothing into the checkout.
# It begins with what `rt check` kept of these crates in any checkout on this machine, and proves the rest.
#
# It prints what rt said of each and ends with their count, with status 1 where one was not refused by the contracts, or
# nothing is known of it: it is still proved, it doesn't apply, its check didn't end, or it was refused only because a
# proof names what it took away. A wrong argument ends it with status 2.
set -eu
top=$(cd "$(dirname "$0")/.." && pwd)

give_up() { # STATUS TEXT
    printf 'wrong_bodies.sh: %s\n' "$2" >&2
    exit "$1"
}

case ${1-} in
--help) sed -n '2,/^set/{/^set/d;s/^# \{0,1\}//p}' "$0" && exit ;;
-*) give_up 2 "no option $1 is known" ;;
esac

if (($#)); then
    names=("$@")
else
    names=()
    for folder in "$top"/wrong_bodies/*/; do names+=("$(basename "$folder")"); done
fi
for crate in "${names[@]}"; do
    [[ $crate =~ ^[a-z0-9_]+$ && -d $top/wrong_bodies/$crate ]] || give_up 2 "there is no folder wrong_bodies/$crate"
    grep -q "^${crate}[ :]" "$top/crates.txt" || give_up 2 "crates.txt names no crate $crate"
done

# The lines of crates.txt of these crates and of those below them.
needed_lines() {
    awk -v wanted="${names[*]}" '
        { sub(/#.*/, "") }
        /:/ { name = $1; sub(/:.*/, "", name); line[name] = $0; sub(/^[^:]*:/, ""); below[name] = $0 }
        function add(name,    deps, count, i) {
            if (!(name in line) || name in added) return
            added[name] = 1
            count = split(below[name], deps)
            for (i = 1; i <= count; i++) add(deps[i])
            print line[name]
        }
        END { count = split(wanted, all); for (i = 1; i <= count; i++) add(all[i]) }
    ' "$top/crates.txt"
}

room=$(mktemp -d) || give_up 1 'no folder could be made for the copy'
child=''
trap '[[ -z $child ]] || kill "$child" 2>/dev/null || true; rm -rf "$room"' EXIT
trap 'exit 1' HUP INT TERM
needed_lines >"$room/crates.txt"
cp "$top/HANDLES" "$room/"
while IFS=' :' read -r name _; do
    mkdir -p "$room/crates/$name"
    for part in src specs proofs; do
        [[ ! -d $top/crates/$name/$part ]] || cp -R "$top/crates/$name/$part" "$room/crates/$name/"
    done
done <"$room/crates.txt"
for crate in "${names[@]}"; do cp -R "$top/wrong_bodies/$crate" "$room/crates/$crate/must-fail"; done

edits=("$room"/crates/*/must-fail/*.edit)
printf 'trying %d wrong bodies of %d crates\n' "${#edits[@]}" "${#names[@]}"
(cd "$room" && exec "$top/tools/refusals.py" rt must-fail "${names[@]}") >"$room/said" 2>&1 </dev/null &
child=$! status=0
wait "$child" || status=$?
child=''
sed "s|$room/||g" "$room/said"
((status == 0))
