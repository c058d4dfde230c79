# shellcheck shell=bash
# After a lost connection no call takes the answer of another: each says 3 until kmip_open, and openssl has ended.

fake held
# shellcheck disable=SC2016 # the script's own variables
after='kmip sign "$held" 4141 >/dev/null; echo "first: $?"; unset KMIP_TIMEOUT
    late; kmip sign other 4242; echo "second: $?"
    kmip query; echo "third: $?"
    open || echo no open
    kmip_field signature_data sign other 4242; echo "fourth: $?"; kmip_close'
# What the line of the fourth call is: the bytes `signature by other`.
other_signed=$(printf 'signature by other' | od -An -tx1 | tr -d ' \n' | tr a-f A-F)

script 'open; kmip query >/dev/null; KMIP_TIMEOUT=1; '"$after"
says 'after its deadline a call has status 3' '^first: 3$'
says 'the next call does not take the late answer' '^second: 3$'
says 'nor the one after it' '^third: 3$'
says_not 'the late answer is nowhere' "$(printf 'signature by held' | od -An -tx1 | tr -d ' \n' | tr a-f A-F)"
says 'kmip_open opens a new connection' "^$other_signed\$"
says 'whose calls are answered' '^fourth: 0$'
says 'each failure is a line of JSON' '^\{"error":"RequestWriteError","text":".*kmip_open.*"\}$'

for signal in INT TERM KILL; do
    # kmip_call alone is ended by a signal.
    script 'open; (calling && kill -'"$signal"' "$CALLING") & '"$after"
    says "SIG$signal to kmip_call: status 3" '^first: 3$'
    says "SIG$signal to kmip_call: the next call does not take the late answer" '^second: 3$'
    says "SIG$signal to kmip_call: after kmip_open all is well" '^fourth: 0$'
done

# Ctrl-C in a script that goes on after it: all processes of the call get the signal.
apart=1 script 'trap "echo caught >&2" INT; (calling; kill -INT 0) & '"open; $after"
says 'Ctrl-C: a script that catches it goes on' '^caught$'
says 'Ctrl-C: status 3' '^first: 3$'
says 'Ctrl-C: the next call does not take the late answer' '^second: 3$'
says 'Ctrl-C: after kmip_open all is well' '^fourth: 0$'

# The whole of the call is ended, as by `kill -9`: the next call finds that one was begun.
script 'open; kmip sign "$held" 4141 >/dev/null & calling; kill -KILL $!; wait
    kill -KILL "$CALLING"; late; kmip sign other 4242; echo "second: $?"; kmip_close'
says 'a call that was killed leaves the connection lost' '^second: 3$'

for answer in half rubbish end reset; do
    fake "$answer"
    script 'open; kmip query; echo "first: $?"; kmip query; echo "second: $?"; ended "$KMIP_PID"; echo "ended: $?"'
    says "$answer: the next call has status 3" '^second: 3$'
    says "$answer: openssl has ended" '^ended: 0$'
done

# The note that a call is made cannot be written: a call that is given up would not be known to be.
fake held
script 'open; exec {KMIP_STATE}<>/dev/full; kmip sign "$held" 41; echo "first: $?"; kmip query; echo "second: $?"'
says 'a full TMPDIR: status 3' '^first: 3$'
says 'a full TMPDIR: nothing is sent' 'RequestWriteError.*TMPDIR.*nothing was sent'
says 'a full TMPDIR: nor by the next call' '^second: 3$'

# Programs that the script begins have the connection; with kmip_without they have not.
fake good
script 'open; has_it() { local stream; for stream in /proc/self/fd/*; do [[ ! $stream -ef $1 ]] || return 0; done; return 1; }
    out=/proc/$$/fd/$KMIP_OUT; export -f has_it
    bash -c "has_it $out" && echo "with it"
    kmip_without bash -c "has_it $out" || echo "without it"
    export KMIP_PASSWORD=geheim; kmip_without bash -c "echo \"password: \$KMIP_PASSWORD.\""; unset KMIP_PASSWORD
    kmip_without false || echo "status $?"
    kmip_without kmip query || echo "no call: $?"
    kmip query; process=$KMIP_PID; kmip_without sleep 60 & daemon=$!
    kmip_close; ended "$process" && kill -0 "$daemon" && echo "the connection ended"; kill "$daemon"
    kmip_without true && echo "without any"'
says 'a child has the connection' '^with it$'
says 'kmip_without: it has not' '^without it$'
says 'kmip_without: nor the password' '^password: \.$'
says 'kmip_without: the status is that of the command' '^status 1$'
says 'kmip_without: no call is made' '^no call: 3$'
says 'kmip_without: the connection is good' '^\{"answer":'
says 'kmip_without: a daemon does not hold it open' '^the connection ended$'
says 'kmip_without: no connection is open' '^without any$'

fake silent
script_is 'after a deadline openssl has ended' 0 'KMIP_TIMEOUT=1; open; kmip query; ended "$KMIP_PID"'
script_is 'kmip_close ends it' 0 'open; process=$KMIP_PID; kmip_close; ended "$process"'
script_is 'kmip_close ends it, where nothing listens' 0 'port=1; open; process=$KMIP_PID; kmip_close; ended "$process"'
script_is 'the end of the script ends it' 0 '
    process=$(bash -c ". \"$top/clients/shell/kmip.sh\"; kmip_open \"\$@\"; echo \$KMIP_PID" - "$host:$port" "$certificate" "$key" "$authority")
    ended "$process"'

# An interactive shell and Ctrl-C.
fake held
"$python" "$own/terminal.py" "$top/clients/shell/kmip.sh" "$control" "$host:$port" "$certificate" "$key" "$authority" \
    >"$said" 2>&1
verdict 'Ctrl-C at a terminal: the shell goes on, and the next call has status 3'

# Bytes that no call asked for are no answer.
fake two
script 'open; kmip sign one 41; arrived; kmip sign two 42; echo "second: $?"; kmip_close'
says 'a second answer is taken by no call' '^second: 3$'
fake trailing
script 'open; kmip query; arrived; kmip query; echo "second: $?"; kmip_close'
says 'bytes behind an answer are taken by no call' '^second: 3$'
fake early
script 'open; arrived; kmip query; echo "first: $?"; kmip_close'
says 'an answer that comes before its request is taken by no call' '^first: 3$'
