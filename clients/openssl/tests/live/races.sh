# shellcheck shell=bash disable=SC2154
# Threads, and a fork beside them, with thread sanitizing.
command -v openssl >/dev/null || return
signer
sanitized=(-fsanitize=thread)
if ! sanitizers_work; then
    printf 'skipped %s: the thread sanitizer of gcc does not work here\n' "$client"
    return
fi
build_provider with_sanitizers "${sanitized[@]}"
build_test program "${sanitized[@]}"
export TSAN_OPTIONS='die_after_fork=0 second_deadlock_stack=1'
configure
run_test program threads kmip:id=priv 3
configure 'connections = 2'
run_test program threads kmip:id=priv 3
