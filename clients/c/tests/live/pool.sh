# shellcheck shell=bash
# A pool: 64 threads under thread sanitizing; then places, their deadline, order and age, forks, connections that have ended,
# and one list of servers, under address sanitizing.
sanitized=(-fsanitize=thread)
look_for_sanitizers
test_build pool "${sanitized[@]}"
fake good
# (libcrypto is not built with it, so that its atomic reads are not seen)
echo 'race:libcrypto.so' >suppressed
TSAN_OPTIONS="suppressions=$PWD/suppressed" test_run pool threads
# shellcheck disable=SC2054 # one word with a comma
sanitized=(-fsanitize=address,undefined -fno-sanitize-recover=all)
look_for_sanitizers
test_build pool "${sanitized[@]}"
test_run pool calls
fake end_after
test_run pool ended
fake end
test_run pool lost
fake nobody && nobody=$port
fake good
test_run pool "$nobody"
