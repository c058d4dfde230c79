# shellcheck shell=bash
# Sessions with servers that make it hard, in one process, with its memory watched.
look_for_sanitizers
test_build calls "${sanitized[@]}"
fake slow
test_run calls restart
test_run calls interrupt
fake closing
test_run calls sigpipe
fake other_object
test_run calls another_object
for name in two trailing; do
    fake "$name"
    test_run calls out_of_step
done
fake end_after
test_run calls ended
fake huge
test_run calls announced
fake no_close
test_run calls close
fake ends
test_run calls in_order
for name in tickets tickets_after; do
    fake "$name"
    test_run calls "$name"
done
fake good
test_run calls values
test_run calls operation
test_run calls certificate
test_run calls counted
test_run calls refused
