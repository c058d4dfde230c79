# shellcheck shell=bash disable=SC2154
# Memory that runs out: each request for it is refused in turn; and what valgrind says of a program that has enough.
command -v openssl >/dev/null || return
signer
uri=kmip:id=priv
look_for_sanitizers
build_provider with_sanitizers ${sanitized[@]+"${sanitized[@]}"}
build_test memory ${sanitized[@]+"${sanitized[@]}"}
configure
run_test memory own "$uri"
unset provider
build_test memory -DALL
configure
run_test memory all "$uri" 37
if command -v valgrind >/dev/null; then
    build_test program
    # (valgrind would take minutes to make a key, and on a busy machine long to find the host)
    configure 'seconds = 600'
    write_uri "$uri" uri.key
    watch=(valgrind -q --error-exitcode=9 --leak-check=full --show-leak-kinds=definite --errors-for-leak-kinds=definite)
    run_test program bundle uri.key
else
    printf 'skipped %s: there is no valgrind (Debian: apt-get install valgrind)\n' "$client"
fi
