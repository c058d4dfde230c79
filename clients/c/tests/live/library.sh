# shellcheck shell=bash
# What a library needs that makes calls within another program: forks, OpenSSL's errors, settings of
# two versions, contexts, kinds of errors, and whether a request was sent.
look_for_sanitizers
test_build forks "${sanitized[@]}" -Wl,--wrap=getpid
fake good
test_run forks
test_build library "${sanitized[@]}" -Wno-deprecated-declarations
for name in good ends end_after end closing over_limit other_object certificate wrong_host \
    other/server; do
    fake "$name"
    test_run library "$name"
done
