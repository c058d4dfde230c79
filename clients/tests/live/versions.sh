# shellcheck shell=bash
# One version, and one licence, for all that has one: that of the newest entry of CHANGELOG.md that has a number. 1.0.0 is 1.0.
version=$(sed -n 's/^## \([0-9][0-9.]*\).*/\1/p' "$top/CHANGELOG.md" | head -1)
has_version() { # FILE SED-SCRIPT
    local found
    found=$(sed -nE "$2" "$top/$1" 2>/dev/null | head -1)
    printf '%s: %s\n' "$1" "${found:-no version}" >"$said"
    [[ $found =~ ^"$version"(\.0)*$ ]]
    verdict "$1 has the version $version"
}
"$built/kmip_call" --version >"$said"
[[ $(<"$said") =~ ^"kmip_call $version"(\.0)?(, not proved)?$ ]]
verdict "kmip_call --version says $version"
has_version clients/rust/Cargo.toml 's/^version *= *"(.*)"$/\1/p'
has_version clients/command/Cargo.toml 's/^version *= *"(.*)"$/\1/p'
has_version clients/python/metsuwan/version.py "s/^__version__ = '(.*)'\$/\1/p"
has_version clients/c/Makefile 's/^VERSION *:?= *(.*)$/\1/p'
for folder in clients/python clients/rust clients/command; do
    cmp "$top/LICENSE" "$top/$folder/LICENSE" >"$said" 2>&1
    verdict "$folder has the licence of the repository"
done
