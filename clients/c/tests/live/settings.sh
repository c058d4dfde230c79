# shellcheck shell=bash
# Settings, a name that is not found in time, values of items, memory that runs out, and large
# answers.
look_for_sanitizers
test_build settings "${sanitized[@]}"
fake ends
test_run settings
test_build items "${sanitized[@]}"
test_run items
test_build memory "${sanitized[@]}" -Wl,--wrap=malloc,--wrap=calloc
fake credential
test_run memory calls
fake batches
test_run memory batch
fake credential
test_build large -O2 -Wl,--wrap=malloc,--wrap=free
test_run large
