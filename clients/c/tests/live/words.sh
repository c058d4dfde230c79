# shellcheck shell=bash
# Words as they are, texts and data, calls of the table, and how much memory large data take.
look_for_sanitizers
test_build words "${sanitized[@]}"
for name in good digest ciphers batches; do
    fake "$name"
    test_run words "$name"
done
fake digest
test_build room -O2
test_run room
