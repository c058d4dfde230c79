#!/bin/bash
# Runs `make 100000` twice by each program of kmip_run that `rt ci` left in crates/kmip_run/out, as LLVM and as the
# toolchain's own compiler built it: status 0, the same bytes each time, and as many answers as exchanges. `.ci/run` calls
# it after `rt ci`; a test of that command within `rt ci` would take longer than all others together.
set -eu
top=$(cd "$(dirname "$0")/.." && pwd)

give_up() { # TEXT
    printf 'make_counts.sh: %s\n' "$1" >&2
    exit 1
}

# What a program writes for `make 100000`.
written() { # PROGRAM
    timeout 120 "$1" make 100000 </dev/null || give_up "$1 make 100000 ended with status $?"
}

programs=()
for program in "$top"/crates/kmip_run/out/kmip_run "$top"/crates/kmip_run/out/kmip_run.*; do
    [[ ! -f $program || ! -x $program ]] || programs+=("$program")
done
((${#programs[@]})) || give_up 'crates/kmip_run/out has no program: run rt ci first'

first=''
for program in "${programs[@]}"; do
    for _ in 1 2; do
        lines=$(written "$program")
        : "${first:=$lines}"
        [[ $lines == "$first" ]] || give_up "$program wrote other lines than the first run"
    done
done
flat=${first//$'\n'/ }
[[ $flat =~ ^exchanges\ 100000\ ok\ ([0-9]+)\ errors\ ([0-9]+)\ sent\ [0-9]+\ taken\ [0-9]+$ ]] ||
    give_up "these are not the five lines of counts: $first"
((BASH_REMATCH[1] + BASH_REMATCH[2] == 100000)) || give_up 'not each exchange was answered'
printf 'make 100000 by %d programs, twice each: %s answers, %s errors\n' \
    "${#programs[@]}" "${BASH_REMATCH[1]}" "${BASH_REMATCH[2]}"
