# shellcheck shell=bash
# needs: server
# The commands of README.md, as they stand there, in a copy of the repository: what they write is what README says, where it
# says something; `..` at the end of a line is the rest of it. The commands of clients/build.sh are not run: $built is what
# they make; nor is that of dpkg, which packages.sh tries. Those with `rt` are left out where there is no toolchain.
folder=$work/copy
mkdir "$folder"
(cd "$top" && git ls-files -z | xargs -0 cp --parents -t "$folder") >"$said" 2>&1
verdict 'the repository is copied'
cp -r "$built" "$folder/built"
port_of() { sed -n 's/^PyKMIP listens on localhost:\([0-9]*\),.*/\1/p'; }

# Runs the lines of a block that begin with `$ `, in one shell, and prints their output, each after a line `== COMMAND`.
run_block() { # BLOCK
    {
        echo "cd '$folder' && PATH=\$PWD/built:\$PATH"
        echo "unset KMIP_CALL" # as for a user who has put the folder on the path
        sed -n 's/^\$ //p' <<<"$1" | while IFS= read -r line; do printf 'echo %q\n%s\n' "== $line" "$line"; done
    } >"$work/block.sh"
    # two lines are rt's own
    bash "$work/block.sh" 2>&1 | grep -v -e '^checked: ' -e '^run='
}

# Whether what a block wrote is what it says: each line after a command, where there is one.
is_as_said() { # BLOCK OUTPUT
    local wanted got command
    while IFS= read -r wanted; do
        if [[ $wanted == '$ '* ]]; then
            command=${wanted#'$ '}
            until [[ ${got-} == "== $command" ]]; do IFS= read -r got <&3 || return; done
        else
            IFS= read -r got <&3 || return
            if [[ $wanted == *.. ]]; then
                # a signature is another one each time
                [[ $got =~ ^[0-9A-F]{512}$ ]] || return
            elif [[ $got != "$wanted" ]]; then
                return 1
            fi
        fi
    done <<<"$1" 3<"$2"
}

# The first way to install, in a folder with what clients/release.sh makes.
if type -P dpkg-deb readelf >/dev/null && printf '#include <openssl/ssl.h>\n' | gcc -E -x c - >"$said" 2>&1; then
    "$folder/clients/release.sh" --built "$built" release >"$said" 2>&1
    verdict 'a release is made'
    install=$(sed -n 's/^| a release | `\(tar [^`]*\)`.*/\1/p' "$top/README.md")
    (cd release && eval "$install" && [[ $(type -P kmip_call) == "$PWD"/* ]] && kmip_call --version) >"$said" 2>&1
    says 'README: a release is installed' '^kmip_call [0-9.]+(, not proved)?$'
else
    echo "skipped $client: no release is made without dpkg-deb, readelf and libssl-dev"
fi

# The blocks of README and of docs/PROGRAM.md with commands, one after the other.
mapfile -d '' -t blocks < <(awk '/^    \$ / { within = 1 } within && !/^    / { within = 0; printf "%c", 0 }
    within { sub(/^    /, ""); print }' "$top/README.md" "$top/docs/PROGRAM.md")
((${#blocks[@]} == 3))
verdict 'README has two blocks of commands, and docs/PROGRAM.md one'
for block in "${blocks[@]}"; do
    if [[ $block == *'rt try'* ]] && ! type -P rt >/dev/null; then
        echo "skipped $client: there is no toolchain (rt)"
        continue
    fi
    if [[ $block == *kmip_ttlv* && ! -x $built/kmip_ttlv ]]; then
        echo "skipped $client: there is no $built/kmip_ttlv"
        continue
    fi
    if [[ $block == *test_server.sh* ]]; then
        # The server may have another port, which it says.
        "$folder/tools/test_server.sh" start >"$said" 2>&1
        other=$(port_of <"$said")
        block=${block//localhost:5696/localhost:$other}
    fi
    run_block "$block" >"$work/output" </dev/null
    cp "$work/output" "$said"
    is_as_said "$block" "$work/output"
    verdict "README: $(sed -n '1s/^\$ //p' <<<"$block" | cut -c1-60)"
done
if type -P rt >/dev/null; then
    (cd "$folder/crates/kmip_run" && rt try -- replay <stdin) >"$work/output" 2>&1
    cp "$work/output" "$said"
    # `rt` may write lines of its own
    grep -qxF -f <(head -1 "$top/crates/kmip_run/stdout") "$work/output"
    verdict 'README: the recorded exchange'
fi
