# shellcheck shell=bash disable=SC2154
# Outputs: files that are whole or not there, their modes, closed and full streams, signals.
fake good
status_is() { # WHAT STATUS: of the command before
    local status=$?
    if ((status != $2)); then printf 'status %d in place of %d\n' "$status" "$2" >>"$said"; fi
    ((status == $2)) && ! grep -q panicked "$said"
    verdict "$1"
}
kmip_here query >&- 2>"$said"
status_is 'an output that is closed' 2
kmip_here query <&- >"$said" 2>&1
status_is 'an input that is closed' 2
kmip_here query 2>&- >"$said"
status_is 'an error output that is closed' 2
[[ ! -s $said ]]
verdict 'nothing was sent, and so there is no answer'
kmip_here query >/dev/full 2>"$said"
status_is 'a disk that is full' 4
says 'it is said' NotWritten
kmip_here --help >/dev/full 2>"$said"
status_is 'a help, and a disk that is full' 4
umask 022
kmip_is 'random bytes into a file' 0 rng 5 -o random
[[ $(stat -c '%s %a' random) == '5 600' ]]
verdict 'are their owner alone'
kmip_is 'a signature into a file' 0 sign id:k text:a -o signature
[[ $(stat -c %a signature) == 644 ]]
verdict 'has the usual mode'
ln -s random link
kmip_is 'into a link' 0 rng 5 -o link
[[ -L link && $(stat -c %s random) == 5 ]]
verdict 'which stays one'
mkdir folder
kmip_is 'into a folder' 2 rng 5 -o folder
kmip_is 'into a folder that is not there' 2 rng 5 -o none/file
kmip_is 'into a device' 0 rng 5 -o /dev/null
printf old >kept
kmip_is 'a call that is refused' 2 sign id:k 00 -o kept
(port=1 kmip_is 'a server that is not there' 3 rng 5 -o kept)
[[ $(<kept) == old && -z $(find . -name '*.part') ]]
verdict 'leave the file as it was, and no part of one'
if [[ -c /dev/full ]]; then
    kmip_is 'a device that is full' 4 rng 5 -o /dev/full
fi
fake silent
begin() { # FILE SIGNAL-ACTION: a call that is not answered, into this file; waits until it has opened that
    # (a job in the background has SIGINT ignored)
    "$python" -c 'import signal, os, sys
signal.signal(signal.SIGINT, signal.SIG_DFL)
signal.signal(signal.SIGHUP, getattr(signal, sys.argv[1]))
os.execvp(sys.argv[2], sys.argv[2:])' "$2" env METSUWAN_CONF=/dev/null METSUWAN_SERVER="$host:$port" \
        METSUWAN_CERTIFICATE="$certificate" METSUWAN_KEY="$key" METSUWAN_AUTHORITY="$authority" METSUWAN_SECONDS=600 \
        "$kmip" rng 5 -o "$1" >"$said" 2>&1 </dev/null &
    process=$!
    started+=("$process")
    for ((try = 0; try < 100 * slack; try++)); do
        if compgen -G "$1.*.part" >/dev/null; then break; fi
        sleep 0.1
    done
}
for signal in INT TERM HUP; do
    begin "file.$signal" SIG_DFL
    wanted=$((128 + $(kill -l "$signal")))
    kill -s "$signal" "$process"
    wait "$process" 2>/dev/null
    status_is "SIG$signal ends it by the signal" "$wanted"
    ! compgen -G "file.$signal*" >/dev/null
    verdict 'and leaves no file'
done
begin file.ignored SIG_IGN
kill -s HUP "$process"
sleep 1
kill -0 "$process" 2>"$said"
verdict 'a signal that its caller ignores does not end it'
kill -s TERM "$process"
wait "$process" 2>/dev/null
status_is 'and another does' 143
fake good
for ((line = 0; line < 2000; line++)); do echo query; done >calls
(
    kmip_here run calls 2>"$said"
    echo $? >status
) | head -1 >first
[[ $(<status) == 141 && -s first && ! -s $said ]]
verdict 'SIGPIPE ends it without a word'
