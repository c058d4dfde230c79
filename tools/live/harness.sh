# shellcheck shell=bash disable=SC2030,SC2031
# What the cases of the live test stand on; tools/live.sh and tools/check_clients.sh source it, which differ in the cases that
# they run.
#
# A CASE FILE is a file of bash, which is found by its place and needs no other entry:
#
#   tools/live/each/TOPIC.sh             for every client but openssl, the provider
#   clients/CLIENT/tests/live/TOPIC.sh   for one, where CLIENT is shell, c, python, rust, command or openssl
#   clients/tests/live/TOPIC.sh          for what the clients are built and packed by, and the encoder; with the shell's
#   tools/live/scripts/TOPIC.sh          for the scripts and documents of the repository; with the shell's
#
# A line `# needs: server` says that it wants PyKMIP, `# needs: library` that a case of the shell wants the libraries too;
# without one it is run with no server installed, against the fakes. It runs in a shell of its own, in a folder of its own,
# beside other case files, and finds
#
#   $client $top $built      the client, the repository, the folder that clients/build.sh made
#   $own                     the folder clients/CLIENT/tests/live
#   $certs $work             the certificates of certs.sh, and an empty folder for this file
#   $host $port $certificate $key $authority     what call_is and client_run connect with: alice, at localhost. $port is
#                            that of PyKMIP where the file needs it
#
# and these calls, each of which but `fake`, `between`, `by_shell` and `lines_of_tasks` is one check, passed or failed:
#
#   fake NAME                from here on $port is that of this server of fakes.py (fakes.py --list)
#   between MODE             from here on $port is that of between.py in this mode, in front of PyKMIP
#   by_shell CALL WORD..     is no check: a call by the shell's client, where another client is not to make it
#   call_is WHAT STATUS CALL WORD..    the program `call` of this client has this status, within $patience seconds (20)
#   says WHAT REGEX          what call_is or the last command with `>"$said"` wrote has a line like this (grep -E)
#   says_not WHAT REGEX      ..or has none
#   lasts WHAT SECONDS       the last call_is took no longer than this
#   verdict WHAT             the status of the command before is 0
#   tls_server WORD..        is no check: from here on $port is that of an `openssl s_server` with these words, which says
#                            nothing; what it read is in $work/tls_server, and `stop_tls_server` ends it
#   lines_of_tasks LANGUAGE  is no check: the lines of the tasks in this language (sh, c, python, rust), or of the command, which stand in
#                            the README of the client
#   linter_says WHAT TOOL VERSION PACKAGE COMMAND..    COMMAND finds nothing; it is skipped where there is no TOOL, and what
#                            another version than VERSION (a regex) finds is said, and fails nothing
#
# Seconds count $slack times, so that a busy machine fails nothing; KMIP_TIMEOUT is 20 of them, where a case sets no other.
#
# Settings go before a call, as in `KMIP_LIMIT=100 call_is 'a response over the limit' 3 query` or
# `certificate=$certs/plain.pem key=$certs/plain.key call_is ..`.
#
# open.txt has the checks that are known to fail, since what they try is not made yet.
#
# client.sh in $own says how a client is built and run: it has the functions
#
#   client_needs             prints what is missing to build it, as the names of Debian packages
#   client_build             builds it in $run/$client, from $built; where it fails, what it wrote is shown. A compiler is
#                            begun by the words ${limit[@]}, which end it where its time is over
#   client_program NAME      sets the array `program`, which runs the client's program call, life or rotate

here=$top/tools/live
clients=(shell c python rust command openssl)
chosen=()
topics=()
built=''
slack=10
python=${PYTHON:-/usr/bin/python3}
[[ -x $python ]] || python=python3

give_up() { # TEXT
    printf '%s: %s\n' "${0##*/}" "$*" >&2
    exit 1
}

usage() {
    sed -n "${usage_at:-4}s/^# */usage: /p" "$0" >&2
    exit 2
}

# The words of a script: those that all have, and its own, which its function `own_words` takes. That leaves in `took` how
# many these were.
read_words() { # WORD..
    local took who
    while (($#)); do
        took=2
        case $1 in
        --help) sed -n '2,/^# shellcheck/{/shellcheck/d;s/^# \{0,1\}//p}' "$0" && exit ;;
        --built | --client | --topic)
            (($# > 1)) || usage
            case $1 in
            --built) built=$(cd "$2" && pwd) || exit 2 ;;
            --client) chosen+=("$2") ;;
            --topic) topics+=("$2") ;;
            esac
            ;;
        *) own_words "$@" || usage ;;
        esac
        shift "$took"
    done
    ((${#chosen[@]} == 0)) || clients=("${chosen[@]}")
    for who in "${clients[@]}"; do [[ -d $(folder_of "$who") ]] || give_up "there is no client $who"; done
}

folder_of() { # CLIENT: that of its case files
    printf '%s\n' "$top/clients/$1/tests/live"
}

# The folder of the run, in $run, which is removed at the end; where `keep` is set, it is left and said.
make_run() { # NAME
    run=$(mktemp -d -t "kmip-$1-XXXXXX") || return
    trap finish EXIT
    trap 'exit 130' INT TERM
}
finish() {
    if [[ -n ${keep-} ]]; then echo "kept: $run"; else rm -rf --one-file-system "$run"; fi
}

# What stop_all ends: processes by their number, and groups of processes by that of their first, with all that they began.
started=()
groups=()
stop_all() {
    local process
    for process in ${started[@]+"${started[@]}"}; do kill "$process" 2>/dev/null; done
    # (a job may have been begun, and not have come to be one of `groups`)
    for process in ${groups[@]+"${groups[@]}"} $(jobs -p); do kill -- "-$process" 2>/dev/null; done
}

verdict() { # WHAT
    local status=$?
    if ((status == 0)); then
        printf 'ok      %s: %s\n' "$client" "$1"
    else
        printf 'FAILED  %s: %s\n' "$client" "$1"
        if [[ -s $said ]]; then tail -5 "$said" | cut -c1-300 | sed 's/^/        /'; fi
    fi
}

client_run() { # PROGRAM WORD..: a program of this client, with the server and the certificates that are set
    local program=()
    client_program "$1" || return
    timeout -k 2 $((${patience:-20} * slack)) "${program[@]}" "$host" "$port" "$certificate" "$key" "$authority" "${@:2}"
}

call_is() { # WHAT STATUS CALL WORD..
    local what=$1 wanted=$2 status from=$EPOCHREALTIME
    client_run call "${@:3}" >"$said" 2>&1 </dev/null
    status=$?
    elapsed=$((${EPOCHREALTIME/[^0-9]/} - ${from/[^0-9]/}))
    if ((status != wanted)); then printf 'status %d in place of %d\n' "$status" "$wanted" >>"$said"; fi
    # No client is to end by an error of its own.
    ((status == wanted)) && ! grep -qE 'Traceback|panicked|core dumped|unbound variable|command not found' "$said"
    verdict "$what"
}

linter_says() { # WHAT TOOL VERSION PACKAGE COMMAND..
    local tried='' status
    if ! "$2" --version >"$said" 2>&1; then
        printf 'skipped %s: there is no %s (Debian: apt-get install %s)\n' "$client" "$2" "$4"
        return
    fi
    if grep -qE -- "$3" "$said"; then tried=1; fi
    "${@:5}" >"$said" 2>&1
    status=$?
    if ((status == 0)) || [[ -n $tried ]]; then
        ((status == 0))
        verdict "$1"
    else
        printf 'note    %s: not so by a %s that is not %s\n' "$client" "$2" "$3"
        tail -5 "$said" | cut -c1-300 | sed 's/^/        /'
    fi
}

says() { # WHAT REGEX
    grep -qE -- "$2" "$said"
    verdict "$1"
}

says_not() { # WHAT REGEX
    ! grep -qE -- "$2" "$said"
    verdict "$1"
}

lasts() { # WHAT SECONDS
    ((elapsed <= $2 * slack * 1000000)) ||
        printf 'it took %d.%03d s\n' $((elapsed / 1000000)) $((elapsed / 1000 % 1000)) >>"$said"
    ((elapsed <= $2 * slack * 1000000))
    verdict "$1"
}

# The lines of code under `## By tasks`, those of a task after those of the one before.
lines_of_tasks() { # LANGUAGE
    local file=clients/$1/README.md fence=$1
    case $1 in
    sh) file=clients/shell/README.md ;;
    command) fence='sh' ;;
    rust) fence=rs ;; # rustdoc takes these for no tests of the crate
    esac
    awk -v fence="\`\`\`$fence" '/^## / { tasks = $0 == "## By tasks" } !tasks { next }
        $0 == fence { within = 1; next } /^```/ { within = 0 } within' "$top/$file"
}

fake() { # NAME
    port=$(awk -v name="$1" '$1 == name { print $2 }' "$run/fakes")
    [[ -n $port ]] || give_up "no fake is called $1"
}

free_port() {
    "$python" -c 'import socket; s = socket.socket(); s.bind(("127.0.0.1", 0)); print(s.getsockname()[1])'
}

wait_for() { # REGEX FILE PROCESS: a line of this file, which that process writes, for at most 20 seconds
    local try lives=1
    for ((try = 0; try < 200 * slack && lives; try++)); do
        kill -0 "$3" 2>/dev/null || lives=0
        if grep -q -- "$1" "$2" 2>/dev/null; then return 0; fi
        sleep 0.1
    done
    return 1
}

between() { # MODE
    local log=$work/between.$1
    "$python" -B "$here/between.py" "$1" "$server_port" "$certs" >"$log" 2>"$log.err" &
    started+=($!)
    disown $! # bash is not to tell how it ends
    wait_for ready "$log" $! || give_up 'between.py does not listen'
    port=$(sed -n 's/^ready //p' "$log")
}

tls_server() { # WORD..
    : >"$work/tls_server"
    OPENSSL_CONF=/dev/null openssl s_server -accept 127.0.0.1:0 "$@" >"$work/tls_server" 2>&1 < <(exec sleep 600) &
    tls_server=$!
    started+=("$tls_server")
    disown "$tls_server"
    wait_for '^ACCEPT ' "$work/tls_server" "$tls_server" || give_up 'openssl s_server does not listen'
    port=$(sed -n 's/^ACCEPT .*://p' "$work/tls_server")
}

stop_tls_server() {
    kill "$tls_server" 2>/dev/null
}

by_shell() { # CALL WORD..
    "$top/clients/shell/call.sh" "$host" "$port" "$certificate" "$key" "$authority" "$@"
}

# The certificates and the fake servers, and an environment without a user's settings.
begin_servers() {
    unset KMIP_USER KMIP_PASSWORD KMIP_LIMIT KMIP_RECORD KMIP_TIMEOUT KMIP_PASSPHRASE KMIP_PASSPHRASE_FILE
    certs=$run/certs
    "$here/certs.sh" "$certs" >"$run/certs.log" 2>&1 && start_fakes && return
    echo 'FAILED  the certificates are not made, or the fake servers are not reached at localhost'
    tail -5 "$run/certs.log" | sed 's/^/        /'
    return 1
}

start_fakes() {
    "$python" -B "$here/fakes.py" "$certs" >"$run/fakes" 2>"$run/fakes.err" &
    started+=($!)
    wait_for ready "$run/fakes" $! && "$python" -B "$here/fakes.py" --reach "$certs" "$run/fakes" 2>>"$run/fakes.err" && return
    cat "$run/fakes.err" >&2
    return 1
}

# One case file for one client, in a shell of its own; what it wrote is in $run/NUMBER.out.
run_case() { # NUMBER CLIENT FILE
    (
        client=$2 own=$(folder_of "$2") work=$run/$1 said=$run/$1/said elapsed=0
        host=localhost port=${server_port-} certificate=$certs/client.pem key=$certs/client.key authority=$certs/ca.pem
        mkdir -p "$work"
        cd "$work" || exit
        : >"$said"
        # (a client's own 30 seconds are over where a machine is busy)
        export KMIP_TIMEOUT=$((20 * slack))
        started=() groups=()
        trap stop_all EXIT
        trap 'exit 130' INT TERM
        . "$own/client.sh"
        printf -- '--      %s: %s\n' "$client" "$3"
        . "$top/$3"
        printf 'ended   %s\n' "$3"
    ) >"$run/$1.raw" 2>&1 </dev/null
    grep -q '^ended ' "$run/$1.raw" || printf 'FAILED  %s: %s broke off\n' "$2" "$3" >>"$run/$1.raw"
    without_open <"$run/$1.raw" >"$run/$1.all"
    mv "$run/$1.all" "$run/$1.out"
}

# What is printed, with `open` in the place of FAILED where open.txt has the check.
without_open() {
    awk -v list="$here/open.txt" '
        BEGIN { while ((getline line < list) > 0) if (line !~ /^(#|$)/) open[line] = 1 }
        function is_open(  what, all) {
            what = all = substr($0, 9)
            sub(/^[a-z]*: /, "*: ", all)
            return what in open || all in open
        }
        /^ended / { next }
        /^FAILED / && is_open() { sub(/^FAILED /, "open   ") }
        /^ok / && is_open() { $0 = $0 " (open.txt has it as open)" }
        { print }'
}

# The case files of a client that want the server, those that don't, or of the latter those that want the libraries in
# $built, one a line. Where there are no libraries, those are none of the others.
cases_of() { # CLIENT server|fakes|library
    local file needs files=("$(folder_of "$1")"/*.sh)
    if [[ $1 != openssl ]]; then files=("$here"/each/*.sh "${files[@]}"); fi
    if [[ $1 == shell ]]; then files+=("$top"/clients/tests/live/*.sh "$here"/scripts/*.sh); fi
    for file in "${files[@]}"; do
        [[ -e $file && ${file##*/} != client.sh ]] || continue
        needs=fakes
        if grep -q '^# needs: server' "$file"; then needs=server; fi
        if grep -q '^# needs: library' "$file" && [[ $2 == library || ! -e $built/libmetsuwan.a ]]; then needs=library; fi
        [[ $needs == "$2" ]] || continue
        file=${file#"$top/"}
        if ((${#topics[@]} == 0)) || [[ " ${topics[*]} " == *" $(basename "$file" .sh) "* ]]; then printf '%s\n' "$file"; fi
    done
}

# Where `until` is set, no case is begun after so many seconds of the script, none is waited for 80 seconds later, none is
# run again 40 seconds later, and such a second run is not waited for 100 seconds later: then the first one counts.
is_before() { # SECONDS
    ((SECONDS < ${until:-SECONDS + 1} + $1))
}

# How many of the case files that were begun are not at their end.
running() {
    local process count=0
    for process in ${processes[@]+"${processes[@]}"}; do
        if kill -0 "$process" 2>/dev/null; then count=$((count + 1)); fi
    done
    echo "$count"
}

# Runs the case files of these clients, so many at once, and prints what each wrote, in order. Where `again` is set, those
# that failed are then run once more, one at a time, and the second run counts.
run_cases() { # server|fakes|library AT-ONCE CLIENT..
    local who file list=() processes=() failed=() shown=0
    for who in "${@:3}"; do
        while read -r file; do list+=("$who $file"); done < <(cases_of "$who" "$1")
    done
    for file in ${list[@]+"${list[@]}"}; do
        while is_before 0 && (($(running) >= $2)); do
            show_ended
            sleep 0.1
        done
        is_before 0 || break
        begin_case "${file//[ \/]/.}" "$file"
        processes+=("$!")
    done
    while ((shown < ${#processes[@]})) && is_before 80; do
        show_ended
        sleep 0.1
    done
    give_up_rest
    for file in ${failed[@]+"${failed[@]}"}; do run_again "$file"; done
}

# Begins a case file, in a group of its own, whose process is then $!.
begin_case() { # NUMBER "CLIENT FILE"
    set -m
    run_case "$1" "${2% *}" "${2#* }" &
    set +m
    groups+=("$!")
}

# Of the list of run_cases: those that have ended, up to the first that has not.
show_ended() {
    while ((shown < ${#processes[@]})) && ! kill -0 "${processes[shown]}" 2>/dev/null; do
        show_case "${list[shown]}"
        shown=$((shown + 1))
    done
}

# Of the list of run_cases: all that were not shown, when there is no time to wait.
give_up_rest() {
    for (( ; shown < ${#list[@]}; shown++)); do
        if [[ -z ${processes[shown]-} ]]; then
            printf 'skipped %s: no time is left\n' "${list[shown]/ /: }"
        elif [[ -e $run/${list[shown]//[ \/]/.}.out ]]; then
            show_case "${list[shown]}"
        else
            kill -- "-${processes[shown]}" 2>/dev/null
            printf 'skipped %s: given up for want of time\n' "${list[shown]/ /: }"
        fi
    done
}

show_case() { # "CLIENT FILE"
    local out=$run/${1//[ \/]/.}.out
    if [[ -n ${again-} ]] && grep -q '^FAILED ' "$out"; then failed+=("$1"); else cat "$out"; fi
}

run_again() { # "CLIENT FILE"
    local name=${1//[ \/]/.} process
    if is_before 40; then
        begin_case "$name.again" "$1"
        process=$!
        while is_before 100 && kill -0 "$process" 2>/dev/null; do sleep 0.1; done
    fi
    if [[ ! -e $run/$name.again.out ]]; then
        cat "$run/$name.out"
        return
    fi
    cat "$run/$name.again.out"
    if ! grep -q '^FAILED ' "$run/$name.again.out"; then
        printf 'note    %s: at first, with others beside it:\n' "${1/ /: }"
        sed -n '/^FAILED /,/^[^ ]/p' "$run/$name.out" | grep -v '^ok ' | sed 's/^/        /'
    fi
}

# The clients that can be built here are built, and `clients` are those; the others are said.
build_clients() {
    local client missing able=() limit=() status
    for client in "${clients[@]}"; do
        missing=$(. "$(folder_of "$client")/client.sh" && client_needs)
        if [[ -n $missing ]]; then
            printf 'skipped %s: there is no %s\n' "$client" "${missing//$'\n'/, no }"
            continue
        fi
        mkdir -p "$run/$client"
        if [[ -n ${until-} ]]; then limit=(timeout $((until + 20 > SECONDS ? until + 20 - SECONDS : 1))); fi
        (. "$(folder_of "$client")/client.sh" && client_build) >"$run/$client/build.log" 2>&1
        status=$?
        if ((status == 0)); then
            able+=("$client")
        elif ((status == 124)); then
            printf 'skipped %s: no time is left to build it\n' "$client"
        elif ((status > 128)) || grep -qE 'signal: 9|Killed signal' "$run/$client/build.log"; then
            printf 'skipped %s: its build was killed, most likely for memory\n' "$client"
        else
            printf 'FAILED  %s: its build\n' "$client"
            tail -20 "$run/$client/build.log" | sed 's/^/        /'
        fi
    done
    clients=(${able[@]+"${able[@]}"})
}

# Runs a function whose processes end with it, and writes the last line, `N passed, M failed`, with what failed and what was
# skipped before it. Its status is 0 where none failed, and some passed, or `may_skip` is set. A function that ends before its
# end, as by a variable that is not set, has failed; so has a client that passed fewer checks than `least` says, unless it was
# skipped, in part at least, for want of a tool, of time or of memory.
count() { # FUNCTION
    local passed failed statuses bound
    local excuse='(there is no |no temporary folder|.*(no time is left|for want of time|most likely for memory|is not built))'
    (
        started=() groups=()
        trap stop_all EXIT
        trap 'exit 130' INT TERM
        "$1"
        : >"$run/ended"
    ) 2>&1 | tee "$run/log"
    statuses=("${PIPESTATUS[@]}")
    if [[ ! -e $run/ended || ${statuses[*]} != '0 0' ]]; then
        printf 'FAILED  %s broke off: status %s\n' "$1" "${statuses[*]}" | tee -a "$run/log"
    fi
    for bound in ${least[@]+"${least[@]}"}; do
        passed=$(grep -c "^ok  *${bound%=*}: " "$run/log")
        if ((passed < ${bound#*=})) && ! grep -qE "^skipped (${bound%=*}|all|the clients[^:]*): $excuse" "$run/log"; then
            printf 'FAILED  %s: %d checks have passed, and at least %d should\n' "${bound%=*}" "$passed" "${bound#*=}" |
                tee -a "$run/log"
        fi
    done
    passed=$(grep -c '^ok ' "$run/log")
    failed=$(grep -c '^FAILED ' "$run/log")
    grep '^skipped ' "$run/log" | sort -u
    grep '^FAILED ' "$run/log" | sort -u
    printf '%d passed, %d failed\n' "$passed" "$failed"
    [[ $failed == 0 && ($passed != 0 || -n ${may_skip-}) ]]
}
