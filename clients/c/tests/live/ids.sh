# shellcheck shell=bash
# The Unique Batch Item IDs of operations, eight random bytes, and of batches, by which the answer is known.
look_for_sanitizers
test_build ids "${sanitized[@]}" -Wl,--wrap=getrandom
for name in ids batches no_id other_id unread; do
    fake "$name"
    test_run ids "$name"
done
