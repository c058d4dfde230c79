# shellcheck shell=bash
# Sets `ttlv` to the program kmip_ttlv: that of $built, a proved one that is newer than all sources, or one that is compiled
# now with no proof. Its status is not 0 where there is none, which is then said.
find_ttlv() {
    local found proved=$top/crates/kmip_ttlv/out/kmip_ttlv
    if [[ -f $proved && -n $(find "$top/crates" -path '*/src/*' -newer "$proved" -print -quit) ]]; then proved=''; fi
    for found in "$built/kmip_ttlv" "$proved" "$run/kmip_ttlv"; do
        ttlv=$found
        if [[ -x $ttlv ]]; then return; fi
    done
    if ! type -P rt >/dev/null; then
        echo "skipped $client: there is no kmip_ttlv, and no toolchain (rt) to build it with"
        return 1
    fi
    "$python" "$top/tools/build.py" --unproved program kmip_ttlv "$ttlv" "$top" >"$said" 2>&1
    verdict 'kmip_ttlv is built'
    [[ -x $ttlv ]]
}
