# shellcheck shell=bash
# Arguments that are null or empty: refused, each with its cause, and the connection stays.
look_for_sanitizers
test_build arguments "${sanitized[@]}"
fake good
test_run arguments
