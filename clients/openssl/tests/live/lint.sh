# shellcheck shell=bash disable=SC2154
# What compilers and linters say of the sources of the provider: nothing. And where it is installed.
cd "$top/clients/openssl" || return
flags=(-std=c11 -I../c -Wall -Wextra -Wconversion -Wshadow -Wpedantic -Wstrict-prototypes -Wformat=2)
compile=(-Werror -c -o "$work/it.o")
for file in *.c; do
    linter_says "gcc says nothing of $file" gcc ' 12\.' gcc gcc "${flags[@]}" -O2 -fanalyzer "${compile[@]}" "$file"
    linter_says "clang says nothing of $file" clang ' 14\.' clang clang "${flags[@]}" "${compile[@]}" "$file"
    # (one by itself takes a second to some 15, and all in one process minutes)
    linter_says "clang-tidy finds nothing in $file" clang-tidy ' 14\.' clang-tidy timeout $((100 * slack)) \
        clang-tidy --quiet --warnings-as-errors='*' "$file" -- -std=c11 -I../c
done
linter_says 'cppcheck finds nothing' cppcheck ' 2\.10' cppcheck cppcheck -q --std=c11 --error-exitcode=1 \
    --enable=warning,performance,portability --suppress=missingIncludeSystem -I../c ./*.c
linter_says 'the layout is that of .clang-format' clang-format ' 14\.' clang-format \
    clang-format --dry-run -Werror ./*.c ./*.h tests/*.c
nm -D --defined-only "$run/openssl/metsuwan.so" | awk '{ print $3 }' >"$said"
[[ $(<"$said") == OSSL_provider_init ]]
verdict 'one function can be seen from outside'
does 'make install' make -s install BUILT="$built" OUT="$run/openssl" DESTDIR="$work/stage" MODULESDIR=/modules
does 'what it leaves is loaded' env OPENSSL_CONF=/dev/null "OPENSSL_MODULES=$work/stage/modules" openssl list -providers \
    -provider default -provider metsuwan
says 'as a provider' 'keys of a KMIP server'
mkdir "$work/none"
printf '#!/bin/sh\nexit 1\n' >"$work/none/pkg-config" && chmod +x "$work/none/pkg-config"
does 'make install, with no pkg-config' env "PATH=$work/none:$PATH" make -s install BUILT="$built" OUT="$run/openssl" \
    DESTDIR="$work/other"
[[ -e $work/other$(openssl version -m | cut -d'"' -f2)/metsuwan.so ]]
verdict 'leaves it where openssl looks'
