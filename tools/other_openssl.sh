#!/bin/bash
# Puts the OpenSSL of another suite of Debian into a folder, to run the live test of the provider with it. Nothing is installed.
#
#   tools/other_openssl.sh SUITE FOLDER      (SUITE: trixie, sid, experimental ..)
#   PATH=FOLDER/bin:$PATH tools/live.sh --client openssl
#
# FOLDER/bin has the command openssl, run with the C library of that suite, and gcc and cc, which compile for both. nginx and
# Python stay this machine's, with its own OpenSSL. It needs Debian's apt and dpkg, and gcc.
set -eu

give_up() { # TEXT
    printf 'other_openssl.sh: %s\n' "$*" >&2
    exit 1
}

if (($# != 2)) || [[ ! $1 =~ ^[a-z-]+$ ]]; then
    sed -n '4s/^# */usage: /p' "$0" >&2
    exit 2
fi
suite=$1
[[ ! -e $2 || -z $(ls -A "$2") ]] || give_up "$2 is not empty"
mkdir -p "$2" && folder=$(cd "$2" && pwd)
[[ $folder != *[[:space:]]* ]] || give_up 'a path with spaces'
triplet=$(gcc -dumpmachine)

# An apt of its own, which knows of no package that is installed here.
apt=$folder/apt
mkdir -p "$apt/lists/partial" "$apt/archives/partial"
: >"$apt/status"
for name in "$suite" sid; do
    printf 'deb [signed-by=/usr/share/keyrings/debian-archive-keyring.gpg] http://deb.debian.org/debian %s main\n' "$name"
done | sort -u >"$apt/sources"
cat >"$apt/conf" <<END
Dir::Etc::sourcelist "$apt/sources";
Dir::Etc::sourceparts "/dev/null";
Dir::Etc::preferencesparts "/dev/null";
Dir::State::lists "$apt/lists";
Dir::State::status "$apt/status";
Dir::Cache "$apt";
Acquire::Languages "none";
APT::Install-Recommends "false";
END
export APT_CONFIG=$apt/conf
apt-get -q update >"$apt/log" 2>&1 || give_up "apt-get update: see $apt/log"
DEBIAN_FRONTEND=noninteractive apt-get -y --download-only -t "$suite" install openssl libssl-dev libc6 libgcc-s1 \
    >>"$apt/log" 2>&1 || give_up "no openssl of $suite: see $apt/log"
for package in "$apt"/archives/*.deb; do dpkg -x "$package" "$folder"; done

lib=$folder/usr/lib/$triplet
loader=$(echo "$lib"/ld-linux*.so.*)
[[ -x $loader ]] || give_up "no loader in $lib"
mkdir "$folder/bin"
printf '#!/bin/sh\nexec %s --library-path %s %s "$@"\n' "$loader" "$lib" "$folder/usr/bin/openssl" >"$folder/bin/openssl"
for compiler in gcc cc; do
    printf '#!/bin/sh\nexec /usr/bin/%s -I%s -I%s "$@" -L%s -Wl,-rpath=%s,--dynamic-linker=%s,--allow-shlib-undefined\n' \
        "$compiler" "$folder/usr/include" "$folder/usr/include/$triplet" "$lib" "$lib" "$loader" >"$folder/bin/$compiler"
done
chmod +x "$folder"/bin/*
rm -r "$apt"
"$folder/bin/openssl" version
