# shellcheck shell=bash
# What the record of a client is told.
look_for_sanitizers
test_build records "${sanitized[@]}"
for name in good batches denied half; do
    fake "$name"
    test_run records "$name"
done
