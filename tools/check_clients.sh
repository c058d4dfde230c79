#!/bin/bash
# The checks of the clients that need no server: linters, and the cases against fake servers (tools/live/harness.sh).
#
#   tools/check_clients.sh [--built DIR] [--seconds N] [--least NAME=N].. [--client NAME].. [--topic NAME]..
#
# (as tools/live.sh has them; with a topic, the linters of all files are left out)
#
# It needs no proof. What the clients stand on is taken from DIR, which clients/build.sh made before; without it, from the
# proved builds in crates/*/out where those are newer than the sources, and the rest is compiled with no proof, where the
# toolchain is there. A check whose tool is missing is skipped, and it says so with the name of the Debian package; what a
# linter finds in another version than it was tried with fails nothing, nor does a check that tools/live/open.txt has. A case
# file that fails is run once more, with nothing beside it, and that run counts. Nothing is begun after N seconds (190), and
# nothing is waited for 100 seconds later, so that it ends within five minutes. With --least a client that has passed fewer
# checks than N has failed, unless it is said to be skipped, in part at least, for want of a tool, of time or of memory. The
# last line is `N passed, M failed`; the status is 1 where one failed.
# shellcheck disable=SC1090,SC1091,SC2030,SC2031,SC2034,SC2154 # harness.sh sets and uses them
set -u
top=$(cd "$(dirname "$0")/.." && pwd)
. "$top/tools/live/harness.sh"

least=() until=190 again=1 may_skip=1
own_words() {
    [[ $1=${2-} =~ ^--(seconds=[0-9]+|least=[a-z]+=[0-9]+)$ ]] || return
    if [[ $1 == --seconds ]]; then until=$2; else least+=("$2"); fi
}
read_words "$@"
if ! make_run check; then
    printf 'skipped all: no temporary folder can be made\n0 passed, 0 failed\n'
    exit 0
fi

# The files of the clients, the tools and the tables that end so.
files_of() { # REGEX
    (cd "$top" && find clients tools tables .ci -type f -not -path '*/target/*' | grep -E "$1" | sort)
}

lint_files() { # TOOL VERSION REGEX COMMAND..: the command finds nothing in these files
    local files
    mapfile -t files < <(files_of "$3")
    linter_says "$1 finds nothing in ${#files[@]} files" "$1" "$2" "$1" "${@:4}" "${files[@]}"
}

lint() {
    local client=lint said=$run/lint
    cd "$top" || return
    lint_files shellcheck '^version: 0\.9\.' '\.(sh|bash)$|^\.ci/run$' shellcheck -x -P SCRIPTDIR
    lint_files pyflakes3 '^2\.5\.' '\.py$' pyflakes3
    lint_files "$python" . '\.py$' "$python" -c 'import sys
for name in sys.argv[1:]:
    compile(open(name, encoding="utf-8").read(), name, "exec")'
    # (node takes one file at a time)
    # shellcheck disable=SC2016 # that of the shell which is begun
    lint_files node . '\.js$' bash -c 'for file in "$@"; do node --check "$file" || exit; done' -
}

# A proved build that is newer than all sources, or nothing.
proved_build() { # FILE
    [[ -f $1 && -z $(find "$top/crates" -path '*/src/*' -newer "$1" -print -quit) ]] && printf '%s\n' "$1"
}

# The first of these that is missing, with its package.
lacking() { # COMMAND:PACKAGE..
    local tool
    for tool in "$@"; do
        type -P "${tool%:*}" >/dev/null && continue
        printf '%s (Debian: apt-get install %s)\n' "${tool%:*}" "${tool#*:}"
        return
    done
}

# Begins to build what the clients stand on, both parts at once, in $run/kmip_call and $run/libkmip_c.a.
begin_builds() {
    local made left=$((until > SECONDS ? until - SECONDS : 1)) part kind file parts=(program:kmip_call:kmip_call)
    if [[ -n $built ]] || ! type -P rt >/dev/null; then return; fi
    [[ -n $no_library ]] || parts+=(library:kmip_c:libkmip_c.a)
    mkdir -p "$run/tmp"
    for part in "${parts[@]}"; do
        IFS=: read -r kind part file <<<"$part"
        if made=$(proved_build "$top/crates/$part/out/$file"); then
            cp "$made" "$run/$file"
        else
            TMPDIR=$run/tmp timeout "$left" "$python" "$top/tools/build.py" --unproved "$kind" "$part" "$run/$file" "$top" \
                >"$run/$kind.log" 2>&1 &
            builders[$kind]=$!
            started+=($!)
        fi
    done
}

# Whether this part is there, at its builder's end. A builder that is killed, by its time or for want of memory, fails
# nothing.
is_built() { # program|library
    local status=0
    local -A makes=([program]=kmip_call [library]=libkmip_c.a)
    if ! type -P rt >/dev/null; then
        echo 'skipped the clients: there is no toolchain (rt) to build with; --built DIR takes a build'
        return 1
    fi
    if [[ -n ${builders[$1]-} ]]; then wait "${builders[$1]}" 2>"$run/waited" || status=$?; fi
    # (bash forgets a status where a later process had the same number)
    if ((status == 127)) && [[ -s $run/${makes[$1]} ]]; then status=0; fi
    ((status != 0)) || return 0
    if ((status >= 124)); then
        echo "skipped the clients: the $1 is not built (status $status); --built DIR takes a build"
    else
        echo "FAILED  build: the $1"
        tail -20 "$run/$1.log" | sed 's/^/        /'
    fi
    return 1
}

# The shell's cases need the program alone, but for a few, and run while the library is built.
cases() {
    local all=("${clients[@]}")
    if [[ -z $built ]]; then
        is_built program || return
        built=$run/kmip
        mkdir "$built" && cp "$run/kmip_call" "$built"
        export KMIP_CALL=$built/kmip_call
        if [[ " ${all[*]} " == *' shell '* ]]; then
            clients=(shell)
            build_clients
            run_cases fakes 8 "${clients[@]}"
        fi
        if [[ -n $no_library ]]; then
            echo "skipped the clients but the shell's: there is no $no_library"
            return
        fi
        is_built library || return
        if ! "$top/clients/build.sh" --program "$run/kmip_call" --library "$run/libkmip_c.a" "$built" >"$run/build" 2>&1; then
            echo 'FAILED  build: clients/build.sh'
            tail -20 "$run/build" | sed 's/^/        /'
            return
        fi
        clients=()
        for who in "${all[@]}"; do
            if [[ $who == shell ]]; then run_cases library 8 shell; else clients+=("$who"); fi
        done
    fi
    export KMIP_CALL=$built/kmip_call
    rest_of_cases
}

# The client in Rust and the command take longest to build: that is done while the cases of the others run.
rest_of_cases() {
    local builder='' others=() late=() who
    for who in "${clients[@]}"; do
        if [[ $who == rust || $who == command ]]; then late+=("$who"); else others+=("$who"); fi
    done
    if ((${#late[@]})); then
        (clients=("${late[@]}") && build_clients && printf '%s\n' ${clients[@]+"${clients[@]}"} >"$run/late") &
        builder=$!
        started+=("$builder")
    fi
    clients=(${others[@]+"${others[@]}"})
    build_clients
    run_cases fakes 8 "${clients[@]}"
    # (its status is not asked: bash forgets it where a later process had the same number)
    if [[ -n $builder ]]; then wait "$builder" 2>"$run/waited"; fi
    late=()
    if [[ -s $run/late ]]; then mapfile -t late <"$run/late"; fi
    run_cases fakes 8 ${late[@]+"${late[@]}"}
}

check() {
    local missing no_library
    local -A builders=()
    missing=$(lacking openssl:openssl timeout:coreutils flock:util-linux)
    no_library=$(lacking gcc:gcc ar:binutils make:make)
    [[ -n $missing ]] || begin_builds
    if ((${#topics[@]} == 0)); then lint; fi
    if [[ -n $missing ]]; then
        echo "skipped the clients: there is no $missing"
        return
    fi
    begin_servers && cases
}

count check
