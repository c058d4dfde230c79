# shellcheck shell=bash
# How the harness builds and runs the client in C.

client_needs() {
    command -v gcc >/dev/null || echo gcc
    command -v make >/dev/null || echo make
    command -v ar >/dev/null || echo binutils
    links '' || echo 'libc6-dev'
    links '#include <openssl/ssl.h>' -lssl -lcrypto || echo libssl-dev
    [[ -e $built/libmetsuwan.a ]] || echo 'libmetsuwan.a (clients/build.sh)'
}

links() { # LINE FLAG..: a program with this line is compiled and linked
    printf '%s\nint main(void) { return 0; }\n' "$1" | gcc -x c - -o /dev/null "${@:2}" >/dev/null 2>&1
}

client_build() {
    ${limit[@]+"${limit[@]}"} make -C "$top/clients/c" BUILT="$built" OUT="$run/c" CFLAGS='-O1 -g' all
}

client_program() { # NAME
    program=("$run/c/$1")
}

# Whether sanitizers work here: they may not be installed, and some want what a container forbids, or an address space
# that is less random.
sanitizers_work() {
    local try
    printf '#include <stdlib.h>\nint main(void) { void *it = malloc(9); free(it); return it == NULL; }\n' |
        gcc -x c - -o "$work/sanitized" "${sanitized[@]}" >"$said" 2>&1 || return
    for ((try = 0; try < 10; try++)); do "$work/sanitized" >"$said" 2>&1 || return; done
}

# Where they do not, the tests are built without them, which is said.
look_for_sanitizers() {
    if ! sanitizers_work; then
        echo 'skipped c: the sanitizers of gcc do not work here, so the tests run without them'
        sanitized=()
    fi
}

# The tests of clients/c/tests, which print their own checks: built with the sources of the client,
# and run with the server and the certificates that are set.
# shellcheck disable=SC2054 # one word with a comma
sanitized=(-fsanitize=address,undefined -fno-sanitize-recover=all)
test_build() { # NAME FLAG..
    local sources=("$top"/clients/c/metsuwan_[!mv]*.c)
    gcc -std=c11 -g -O1 -Wall -Wextra "${@:2}" -I"$top/clients/c" -o "$work/$1" \
        "$top/clients/c/tests/$1.c" "${sources[@]}" "$built/libmetsuwan.a" \
        -lssl -lcrypto -pthread >"$said" 2>&1
    verdict "the test $1 is built"
}

test_run() { # NAME WORD..
    local server=("$host" "$port" "$certificate" "$key" "$authority")
    timeout -k 2 $((90 * slack)) "$work/$1" "${@:2}" "${server[@]}" 2>"$said"
    verdict "$1 ${*:2} ends well"
}

# The tasks of clients/c/README.md, as a program.
tasks_in_c() {
    cat <<'CODE'
#define _POSIX_C_SOURCE 200809L
#include "metsuwan_tls.h"
#include <stdio.h>
#include <stdlib.h>
#include <string.h>
CODE
    lines_of_tasks c | sed -n '/^static /,/^}/p'
    cat <<'CODE'
int main(int argc, char **argv) {
    if (argc != 6) return 2;
    kmip_settings settings = kmip_defaults();
    settings.host = argv[1];
    settings.port = argv[2];
    settings.certificate = argv[3];
    settings.key = argv[4];
    settings.authority = argv[5];
    char error[300];
    kmip_client *client = kmip_open(&settings, error, sizeof error);
    if (!client) return 3;
CODE
    lines_of_tasks c | sed '/^static /,/^}/d'
    cat <<'CODE'
    puts("the end");
    free(key);
    free(new);
    free(taken);
    kmip_close(client);
    return 0;
}
CODE
}
