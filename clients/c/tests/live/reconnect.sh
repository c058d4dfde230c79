# shellcheck shell=bash
# Connections that are opened again, and what the log is told.
look_for_sanitizers
test_build reconnect "${sanitized[@]}"
for name in end_after first_lost end silent good; do
    fake "$name"
    test_run reconnect "$name"
done
