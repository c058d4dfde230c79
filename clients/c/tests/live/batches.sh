# shellcheck shell=bash
# Several calls in one message: each answer is that of the single call, and what is of no call loses the connection.
look_for_sanitizers
test_build batches "${sanitized[@]}"
fake good && good=$port
fake transparent && keys=$port
for name in batches earlier_batch no_batches odd_batches; do
    fake "$name"
    test_run batches "$name" "$good" "$keys"
done
# No message, one that breaks off, one that is too long, one with no call's item, and the request itself.
for name in rubbish half over_limit batch_two batch_none other_operation pending echo deep; do
    fake "$name"
    test_run batches others "$good" "$keys"
done
# (PyKMIP is not there to run them; c/tasks.sh does that)
tasks_in_c >tasks.c
gcc -std=c11 -Wall -Wextra -Werror -fsyntax-only -I"$top/clients/c" tasks.c >"$said" 2>&1
verdict 'the tasks of the README are compiled'
