# shellcheck shell=bash
# How the harness runs the client in Python.

client_needs() {
    command -v "$python" >/dev/null || echo python3
    [[ -e $built/libmetsuwan.so ]] || echo 'libmetsuwan.so (clients/build.sh)'
}

client_build() { :; }

client_program() { # NAME
    export LIBMETSUWAN=$built/libmetsuwan.so PYTHONDONTWRITEBYTECODE=1
    program=("$python" "$top/clients/python/$1.py")
}
