# shellcheck shell=bash
# What compilers and linters say of the sources in C: nothing.
cd "$top/clients/c" || return
flags=(-std=c11 -Wall -Wextra -Wconversion -Wshadow -Wpedantic -Wstrict-prototypes -Wformat=2)
compile=(-Werror -c -o "$work/it.o")
for file in *.c; do
    linter_says "gcc says nothing of $file" gcc ' 12\.' gcc gcc "${flags[@]}" -O2 -fanalyzer "${compile[@]}" "$file"
    linter_says "gcc says nothing of $file with GNU's calls" gcc ' 12\.' gcc gcc -D_GNU_SOURCE "${flags[@]}" -O1 "${compile[@]}" "$file"
    linter_says "clang says nothing of $file" clang ' 14\.' clang clang "${flags[@]}" "${compile[@]}" "$file"
done
# varFuncNullUB: NULL is a pointer here, and POSIX has it so.
linter_says 'cppcheck finds nothing' cppcheck ' 2\.10' cppcheck cppcheck -q --std=c11 --error-exitcode=1 \
    --enable=warning,performance,portability --suppress=missingIncludeSystem \
    --suppress=varFuncNullUB ./*.c
linter_says 'clang-tidy finds nothing' clang-tidy ' 14\.' clang-tidy \
    clang-tidy --quiet --warnings-as-errors='*' ./*.c -- -std=c11
linter_says 'the layout is that of .clang-format' clang-format ' 14\.' clang-format \
    clang-format --style=file:.clang-format --dry-run -Werror ./*.c ./*.h tests/*.c tests/*.h tests/*/*.c ../web/tests/*.c
# What an error is, programs are told by kmip_error_kind: a line has the server's text, too.
! grep -nE '(strstr|strcmp|strncmp)\(kmip_line' call.c life.c rotate.c ../openssl/*.c README.md ../../docs/OPENSSL.md >"$said" 2>&1
verdict 'no example looks for an error in the text of a line'
# What returns a status, a length or memory is to be looked at.
! grep -nE '^(int|int32_t|int64_t|kmip_[a-z]+ \*) ?kmip_' metsuwan.h metsuwan_tls.h >"$said"
verdict 'each call of the headers that returns a status or memory says so'
if printf '#include "metsuwan_tls.h"\nvoid f(kmip_client *client) { kmip_call(client, "query", NULL); }\n' |
    gcc -x c -std=c11 -I. -Werror=unused-result -c -o "$work/ignored.o" - >"$said" 2>&1; then
    false
else
    grep -q unused-result "$said"
fi
verdict 'and one that is not looked at is warned of'
