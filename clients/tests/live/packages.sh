# shellcheck shell=bash
# clients/install.sh and clients/release.sh: what they leave, in an empty folder, and what is made with it there.
# needs: library
for tool in gcc:gcc make:make nm:binutils dpkg-deb:dpkg; do
    type -P "${tool%:*}" >/dev/null && continue
    printf 'skipped shell: packages are not made: there is no %s (Debian: apt-get install %s)\n' "${tool%:*}" "${tool#*:}"
    return
done
if ! printf '#include <openssl/ssl.h>\n' | gcc -E -x c - >"$said" 2>&1; then
    echo 'skipped shell: packages are not made: there is no libssl-dev'
    return
fi
# What the builds would have made in two to four minutes more.
mkdir whole
cp "$built"/kmip_call "$built"/libmetsuwan.* whole
printf '#!/bin/sh\necho an encoder\n' >whole/kmip_ttlv
chmod +x whole/kmip_ttlv
printf '#!/bin/sh\necho a command\n' >whole/kmip
chmod +x whole/kmip
mkdir whole/man
touch whole/man/kmip.1 whole/man/kmip-sign.1
echo '<html>' >whole/kmip.html
echo 'a provider' >whole/metsuwan.so
in_place() { # WORD..: install.sh, whatever the environment has
    env -i PATH="$PATH" HOME="$work" "$top/clients/install.sh" "$@" >"$said" 2>&1
}
in_place --built whole --prefix /opt/kmip --destdir 'a stage'
verdict 'install.sh, below a folder with a space'
stage="a stage/opt/kmip"
missing=''
for file in bin/{kmip_call,kmip_ttlv,kmip,kmip-test-server,kmip.sh,kmip_keys.sh} lib/libmetsuwan{,_tls}.{a,so,so.2} include/metsuwan{,_tls}.h \
    lib/pkgconfig/metsuwan{,_tls}.pc lib/ossl-modules/metsuwan.so share/man/man1/{kmip_call,kmip,kmip-sign,kmip.sh,kmip_ttlv}.1 \
    share/man/man5/kmip.conf.5 share/zsh/site-functions/_kmip \
    share/bash-completion/completions/{kmip_call,kmip,kmip_field,kmip_open} share/metsuwan/kmip.html share/doc/metsuwan/LICENSE \
    bin/kmip_{test,try}_server share/metsuwan/tools/{test_server.sh,live/certs.sh,live/start_server.sh}; do
    [[ -e $stage/$file ]] || missing+=" $file"
done
printf 'missing:%s\n' "$missing" >>"$said"
[[ -z $missing ]]
verdict 'all is there'
[[ $(find 'a stage' -type f -perm /022) == '' && -x $stage/bin/kmip_call && -x $stage/lib/ossl-modules/metsuwan.so ]]
verdict 'nobody but its owner can write it'
touch "$stage/bin/other"
in_place uninstall --prefix /opt/kmip --destdir 'a stage' && [[ $(find 'a stage' -not -type d) == "$stage/bin/other" ]]
verdict 'uninstall takes all of it away, and nothing else'
in_place --built "$built" --prefix /usr --libdir /usr/lib/x86_64-linux-gnu --destdir multi &&
    [[ -e multi/usr/lib/x86_64-linux-gnu/libmetsuwan.so.2 && ! -e multi/usr/lib/libmetsuwan.a ]]
verdict 'the libraries go where --libdir says'
if [[ ! -e $built/kmip_ttlv ]]; then says 'what was not built is said to be left out' 'kmip_ttlv is left out: there is no '; fi
in_place uninstall --prefix /usr --libdir /usr/lib/x86_64-linux-gnu --destdir multi && [[ -z $(find multi -not -type d) ]]
verdict 'and uninstall finds them'
status_is() { # WHAT STATUS WORD..
    in_place "${@:3}"
    (($? == $2))
    verdict "$1"
}
status_is 'no built folder' 1 --built none --destdir nothing
status_is 'a prefix with a space' 1 --built whole --prefix '/a b' --destdir nothing
status_is 'a prefix that is no absolute path' 1 --built whole --prefix usr --destdir nothing
status_is 'a word that is none' 2 --built whole --root x
[[ -z $(find nothing -not -type d 2>/dev/null) ]]
verdict 'nothing is installed by any of these'

# Binaries, with no toolchain.
release() { env -i PATH="$PATH" HOME="$work" SOURCE_DATE_EPOCH="${2-1700000000}" "$top/clients/release.sh" --built whole "$1" >"$said" 2>&1; }
release out
verdict 'release.sh'
(cd out && sha256sum --strict -c SHA256SUMS && [[ $(wc -l <SHA256SUMS) == "$(find . -type f -not -name SHA256SUMS | wc -l)" ]]) >"$said" 2>&1
verdict 'the sums are those of all that it made'
release again && cmp out/SHA256SUMS again/SHA256SUMS >"$said" 2>&1
verdict 'a second run makes the same bytes'
tarball=$(echo out/metsuwan-*-linux-x86_64.tar.gz) deb=$(echo out/metsuwan_*_amd64.deb)
mkdir root
tar -xzf "$tarball" -C root --strip-components 1 && [[ -s root/LICENSE && -s root/bin/kmip_call ]]
verdict 'the tarball has the program and the licence'
note=$(sed -n 's/^Metsuwan \([^ ]*\), .* glibc [0-9.]* or later.*/\1/p' root/VERSION)
[[ $tarball == "out/metsuwan-$note-linux-x86_64.tar.gz" && $deb == "out/metsuwan_${note/+/\~}_amd64.deb" ]]
verdict "each says its version: $note"
missing=''
for file in bin/kmip_{test,try}_server share/metsuwan/tools/live/certs.sh share/doc/metsuwan/{README.md,docs/CALL.md,docs/page-exchanges.png} \
    share/doc/metsuwan/clients/{README.md,c/call.c,shell/life.sh,python/call.py,rust/examples/call.rs}; do
    [[ -e root/$file ]] || missing+=" $file"
done
printf 'missing:%s\n' "$missing" >"$said"
[[ -z $missing ]]
verdict 'the tarball has the test server, the documents and the examples'
# What is not proved is older than what is, and does not call itself proved.
if [[ $note == *+* ]]; then
    dpkg --compare-versions "$(dpkg-deb --field "$deb" Version)" lt "${note%+*}"
    verdict 'a package that is not proved sorts below the proved one'
    dpkg-deb --field "$deb" Description >"$said"
    says_not 'and is not said to be proved' 'a proved library'
    wheel=$(cd out && echo metsuwan-*.whl) crate=$(cd out && echo metsuwan-*.crate)
    if [[ -f out/$wheel ]]; then
        [[ $wheel == "metsuwan-${note%+*}.dev0+${note#*+}-py3-none-"* ]]
        verdict 'nor a wheel (PEP 440)'
    else
        echo 'skipped shell: the wheel: there is no pip, setuptools or wheel'
    fi
    if [[ -f out/$crate ]]; then
        [[ $crate == "metsuwan-${note%+*}.0-$(tr -d . <<<"${note#*+}").crate" ]]
        verdict 'nor the crate (Semantic Versioning)'
        tar -xzf "out/$crate" && grep -q "^version = \"${note%+*}.0-" metsuwan-*/Cargo.toml
        verdict 'whose sources say so'
    else
        echo 'skipped shell: the crate: there is no cargo'
    fi
fi
# The server of the release, started with no checkout near.
if type -P pykmip-server openssl >"$said"; then
    mkdir alone
    (cd alone && env -i PATH="$work/root/bin:$PATH" HOME="$work" kmip_test_server start) >"$said" 2>&1
    verdict 'kmip_test_server of the tarball starts'
    sed -n '/^Enter:/,/^And/s/^    //p' "$said" >enter.sh
    printf 'kmip activate 2; kmip_field signature_data sign 2 68656C6C6F; kmip_close\n' >>enter.sh
    (cd alone && env -i PATH="$work/root/bin:$PATH" HOME="$work" bash ../enter.sh) >"$said" 2>&1
    says 'and what it says to enter, signs' '^[0-9A-F]{512}$'
    (cd alone && env -i PATH="$work/root/bin:$PATH" HOME="$work" kmip_test_server stop) >"$said" 2>&1 && [[ ! -e alone/built/test_server ]]
    verdict 'and stops'
else
    echo 'skipped shell: the server of a release: there is no pykmip-server'
fi
# An empty root with the C library and bash, and nothing that builds: the loader and the libraries that these two ask for.
libraries_of() { # PROGRAM..
    ldd "$@" | grep -oE '/[^ ]+' | grep -v ':$' | sort -u
}
mkdir empty
{ libraries_of "$(type -P bash)" root/bin/kmip_call && type -P bash; } >needed
xargs -I{} cp -L --parents {} empty <needed
within() { # COMMAND WORD..: in that root, as root of it
    if ((EUID == 0)); then chroot empty "$@"; else unshare -r chroot empty "$@"; fi >"$said" 2>&1
}
if within "$(type -P bash)" -c :; then
    mkdir empty/kmip && cp -r root/. empty/kmip
    within "$(type -P bash)" -c '/kmip/bin/kmip_call --version'
    says 'kmip_call of the tarball runs in a root that has the C library alone' '^kmip_call [0-9.]+(, not proved)?$'
    within "$(type -P bash)" -c 'PATH=/kmip/bin; . kmip.sh; kmip_word "a b"'
    says 'and kmip.sh is found on the path there' '^a%20b$'
else
    echo 'skipped shell: there is no chroot for this user'
fi
if type -P pkg-config >/dev/null; then
    mv root moved
    mapfile -t flags < <(PKG_CONFIG_PATH=$work/moved/lib/pkgconfig pkg-config --cflags --libs metsuwan_tls | xargs -n1)
    gcc -o call "$top/clients/c/call.c" "${flags[@]}" >"$said" 2>&1
    verdict 'a program is built over the tarball, wherever it lies'
    fake good
    LD_LIBRARY_PATH=$work/moved/lib ./call "$host" "$port" "$certificate" "$key" "$authority" query >"$said" 2>&1
    verdict 'and is answered'
fi
dpkg-deb --info "$deb" >"$said" 2>&1
says 'the package of Debian says what it needs' '^ Depends: libc6 \(>= 2\.[0-9]+\), libssl3 '
# (an empty system of dpkg, which knows of no other package; where dpkg may not, its files are taken out alone)
mkdir -p system/var/lib/dpkg/{info,updates,triggers} && : >system/var/lib/dpkg/status
if ((EUID == 0)); then
    own_dpkg=(dpkg --root="$work/system" --force-depends --force-script-chrootless)
    PATH=$PATH:/usr/sbin:/sbin "${own_dpkg[@]}" -i "$deb" >"$said" 2>&1 && [[ -x system/usr/bin/kmip_call ]]
    verdict 'it is installed into an empty system'
    system/usr/bin/kmip_call --version >"$said" 2>&1
    says 'and its program runs' '^kmip_call [0-9.]+(, not proved)?$'
    PATH=$PATH:/usr/sbin:/sbin "${own_dpkg[@]}" -r metsuwan >"$said" 2>&1 && [[ -z $(find system/usr -not -type d 2>/dev/null) ]]
    verdict 'and taken away whole'
else
    dpkg-deb -x "$deb" system >"$said" 2>&1 && [[ -x system/usr/bin/kmip_call ]]
    verdict 'its files are where they belong'
fi
