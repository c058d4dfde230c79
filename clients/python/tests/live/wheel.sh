# shellcheck shell=bash
# A wheel that holds the library, installed where there is nothing else.
missing=$("$python" -c 'import importlib.util as it
for name, package in (("pip", "python3-pip"), ("setuptools", "python3-setuptools"),
                      ("wheel", "python3-wheel"), ("venv", "python3-venv")):
    if it.find_spec(name) is None:
        print("no", name, "(Debian: apt-get install %s)" % package)')
if [[ -n $missing ]]; then
    printf 'skipped python: there is %s\n' "${missing//$'\n'/, }"
    return
fi
cp -r "$top/clients/python" source # pip builds in the folder itself
unset LIBMETSUWAN PYTHONPATH
alone=(--quiet --no-index --no-deps)
wheel() { # what pip says is in $said
    "$python" -m pip wheel "${alone[@]}" --no-build-isolation --wheel-dir "$work" ./source \
        >"$said" 2>&1
}
! wheel && grep -q LIBMETSUWAN "$said" && [[ ! -e $(echo metsuwan-*.whl) ]]
verdict 'no wheel without the library, which is said'
if type -P gcc >/dev/null; then
    gcc -shared -fPIC -x c - -o old.so <<<'const char *kmip_version(void) { return "1.0, proved"; }'
    rm -rf source && cp -r "$top/clients/python" source
    ! LIBMETSUWAN=$work/old.so wheel && grep -q 'old\.so is libmetsuwan 1\.0' "$said" && [[ ! -e $(echo metsuwan-*.whl) ]]
    verdict 'no wheel with a library of another version, which is said'
else
    echo 'skipped python: there is no gcc (Debian: apt-get install gcc): a library of another version is not tried'
fi
rm -rf source && cp -r "$top/clients/python" source
LIBMETSUWAN=$built/libmetsuwan.so wheel
verdict 'a wheel is built'
machine=$("$python" -c 'import sysconfig; print(sysconfig.get_platform())')
newest=$(grep -aoE 'GLIBC_2\.[0-9]+' "$built/libmetsuwan.so" | sort -uV | tail -1)
[[ -e $(echo metsuwan-*-py3-none-manylinux_2_"${newest#*.}_${machine#linux-}".whl) ]]
verdict 'it is for any Python 3 on this kind of machine, with a C library that is new enough'
note=$(PYTHONPATH=$top/clients/python "$python" -B -c 'import sys
from metsuwan.library import Library
print(Library(sys.argv[1]).version().partition(", ")[2] or "proof unknown")' "$built/libmetsuwan.so")
case $note in
proved) [[ -e $(echo metsuwan-[0-9.]*-py3-*.whl) && ! -e $(echo metsuwan-*+*.whl) ]] ;;
*) [[ -e $(echo metsuwan-*+"${note// /.}"-*.whl) ]] ;;
esac
verdict "its version says of the library: $note"
unzip_list() { "$python" -m zipfile -l "$1" >"$said" 2>&1; }
unzip_list metsuwan-*.whl && grep -qE 'dist-info/(licenses/)?LICENSE ' "$said"
verdict 'it has the licence'
if "$python" -c 'import build' 2>"$said"; then
    mkdir by_build && cp -r "$top/clients/python" by_build/source
    LIBMETSUWAN=$built/libmetsuwan.so "$python" -m build --no-isolation --outdir by_build by_build/source >"$said" 2>&1 &&
        [[ $(cd by_build && echo metsuwan-*.whl) == "$(echo metsuwan-*.whl)" && -e $(echo by_build/metsuwan-*.tar.gz) ]]
    verdict 'python3 -m build makes the same one, and a package of the sources'
else
    echo 'skipped python: there is no python3-build: python3 -m build is not tried'
fi
own=$work/env/bin/python
"$python" -m venv --without-pip "$work/env" >"$said" 2>&1 &&
    "$python" -m pip --python "$own" install "${alone[@]}" metsuwan-*.whl >"$said" 2>&1
verdict 'it is installed'
fake good
cd /
"$own" -I -c '
import sys, metsuwan
host, port, cert, key, ca = sys.argv[1:]
with metsuwan.Client(host, port, cert=cert, key=key, ca=ca) as kmip:
    print(kmip.sign("k", b"x").signature_data.decode(), metsuwan.__file__)' \
    "$host" "$port" "$certificate" "$key" "$authority" >"$said" 2>&1
says 'it makes a call with its own library' "^signature by k $work/env/"
[[ $("$own" -I -c 'import importlib.metadata as it, metsuwan
print(metsuwan.__version__ == it.version("metsuwan"))') == True ]]
verdict 'metsuwan.__version__ is its version'
[[ -e $("$own" -I -c 'import metsuwan; print(metsuwan.__path__[0])')/py.typed ]]
verdict 'it is typed'
