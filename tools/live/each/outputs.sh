# shellcheck shell=bash
# Outputs that cannot be written: status 4, and no error of the language's own.
written() { # WHAT STATUS: how the command before ended, which wrote "$said"
    local status=$?
    if ((status != $2)); then printf 'status %d in place of %d\n' "$status" "$2" >>"$said"; fi
    ((status == $2)) && ! grep -qE 'Traceback|Exception|panicked|core dumped|line [0-9]+:' "$said"
    verdict "$1"
}
# (Python writes what is in its buffer at its end.)
unset PYTHONUNBUFFERED
fake good
client_run call query 2>"$said" >/dev/full
written 'an answer, and a disk that is full' 4
if [[ $client != shell ]]; then says 'the reason is said' 'No space left on device'; fi
# (Rust puts /dev/null in the place of an output that is closed.)
closed=4 of_call=4
if [[ $client == rust ]]; then closed=0 of_call=0; fi
# (the command looks at its streams before it sends anything)
if [[ $client == command ]]; then of_call=2; fi
client_run call query 2>"$said" >&-
written 'an answer, and an output that is closed' "$of_call"
client_run rotate old name 2>"$said" >"$work/new"
written 'a rotation' 0
[[ -s $work/new ]]
verdict 'writes the identifier of the new key'
client_run rotate old name 2>"$said" >/dev/full
written 'a rotation, and a disk that is full' 4
says 'it is said where the new key is' '^\{"error": ?"NotWritten", ?"text": ?"locate finds'
client_run rotate old name 2>"$said" >&-
written 'a rotation, and an output that is closed' "$closed"
for given in $((port + 65536)) 0 65536 -1; do
    port=$given call_is "the port $given" 2 query
    port=$given client_run rotate old name >"$said" 2>&1
    written "a rotation by the port $given" 2
done
# What is said of a failure may have nowhere to go: the status tells of it.
written_nowhere() { # WHAT STATUS PROGRAM WORD..
    client_run "${@:3}" >"$said" 2>/dev/full
    written "$1" "$2"
}
fake nobody
written_nowhere 'nobody listens, and standard error is full' 3 call query
fake good
written_nowhere 'a call that is none, and standard error is full' 2 call sing
written_nowhere 'a rotation with a word too few, and standard error is full' 2 rotate old
written_nowhere 'a life with a word too few, and standard error is full' 2 life
written_nowhere 'an object that is not there, and standard error is full' 2 call get ''
