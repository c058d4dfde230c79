# shellcheck shell=bash
# make install, and programs that are built with what it leaves.
if ! type -P pkg-config >/dev/null; then
    echo 'skipped c: there is no pkg-config (Debian: apt-get install pkgconf)'
    return
fi
mkdir out
root=$work/root lib=$work/root/usr/lib
make_it() { # TARGET
    make -s -C "$top/clients/c" "$1" BUILT="$built" OUT="$work/out" PREFIX=/usr DESTDIR="$root" \
        >"$said" 2>&1
}
make_it install
verdict 'make install'
export PKG_CONFIG_SYSROOT_DIR=$root PKG_CONFIG_PATH=$lib/pkgconfig
export PKG_CONFIG_ALLOW_SYSTEM_LIBS=1 PKG_CONFIG_ALLOW_SYSTEM_CFLAGS=1 LD_LIBRARY_PATH=$lib
names_of() { # LIBRARY: what can be linked with, on one line
    nm -D --defined-only "$lib/$1" | awk '{ print $3 }' | sort | xargs
}
for library in libmetsuwan libmetsuwan_tls; do
    soname=$(readelf -d "$lib/$library.so" | sed -n 's/.*soname: \[\(.*\)\]/\1/p')
    [[ $soname == "$library.so.2" && -e $lib/$soname && -e $lib/$library.a ]]
    verdict "$library has a SONAME, and is there by it"
    readelf -d "$lib/$library.so" | grep -q 'Flags: NOW'
    verdict "$library has its functions bound at the start"
    # A thread that searches for a host may run longer than anybody needs the library.
    readelf -d "$lib/$library.so" | grep -q 'Flags:.*NODELETE'
    verdict "$library stays in memory after dlclose"
done
[[ $(names_of libmetsuwan.so | sed 's/kmip_//g') == \
    'answer contents_len operation_answer operation_refusal operation_request refusal request value version' ]]
verdict 'libmetsuwan.so has its nine calls, and no other names'
[[ $(names_of libmetsuwan_tls.so | sed 's/kmip_//g') == \
    'abandon batch_answer batch_array batch_call batch_count batch_free batch_new batch_operation batch_send batch_words bytes call call_array call_words close connect count error_kind line list_bytes list_free list_new list_next list_text open operation pem pool_free pool_give_back pool_new pool_take register_certificate register_private_key register_public_key register_secret server_of text was_sent' ]]
verdict 'libmetsuwan_tls.so has the calls of its header, and no other names'
version=$(sed -n 's/^VERSION := //p' "$top/clients/c/Makefile")
[[ $(pkg-config --modversion metsuwan metsuwan_tls | sort -u) == "$version" ]]
verdict 'pkg-config knows the version'

# Programs, each in a folder that has nothing but its source.
fake good
read -ra shared <<<"$(pkg-config --cflags --libs metsuwan_tls)"
read -ra static <<<"$(pkg-config --cflags metsuwan_tls)"
static+=("$lib/libmetsuwan_tls.a" "$lib/libmetsuwan.a" -lssl -lcrypto -pthread)
mkdir sources
cp "$top/clients/c/call.c" sources
build() { # COMPILER SOURCE FLAG..
    "$1" -Wall -Wextra -Wpedantic -Werror -o program "sources/$2" "${@:3}" >"$said" 2>&1
}
makes_a_call() {
    ./program "$host" "$port" "$certificate" "$key" "$authority" query >"$said" 2>&1
}
! build gcc call.c
verdict 'a program is not built without what was installed'
build gcc call.c "${shared[@]}" && makes_a_call
verdict 'a program over the shared libraries is built and answered'
readelf -d program | grep -q 'Flags: NOW'
verdict 'and has its functions bound at the start, as pkg-config says'
build gcc call.c "${static[@]}" && LD_LIBRARY_PATH='' makes_a_call
verdict 'a program over the static libraries is built and answered'
cat >sources/header.cc <<'CODE'
#include <metsuwan_tls.h>
int main() {
    kmip_settings it = kmip_defaults();
    return it.size == 0 || kmip_call(nullptr, "query", nullptr) != KMIP_LOST;
}
CODE
if type -P g++ >/dev/null; then
    build g++ header.cc "${shared[@]}" && ./program
    verdict 'the headers are those of C++ too'
fi
printf '#include <metsuwan_tls.h>\nint main(void) { return kmip_call(NULL, "query"); }\n' \
    >sources/sentinel.c
! build gcc sentinel.c "${shared[@]}" && grep -q sentinel "$said"
verdict 'a call whose words do not end is found by the compiler'
make_it uninstall
[[ -z $(find root -not -type d) ]]
verdict 'make uninstall leaves nothing'
