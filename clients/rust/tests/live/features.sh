# shellcheck shell=bash
# The features over other crates: each by itself, and the tests and examples of all that can be built here.
tests=()
for feature in r2d2:manager tokio:asynchronous tracing:events; do
    test=${feature#*:} feature=${feature%:*}
    if ! has_crate "$feature"; then
        echo "skipped rust: there is no crate $feature (Debian: apt-get install librust-$feature-dev)"
        continue
    fi
    tests+=(--test "$test")
    linter_says "clippy finds nothing with $feature alone" cargo-clippy ' 0\.1\.95' rust-clippy \
        cargo_of_copy clippy --release --features "$feature" -- -D warnings
    [[ $(cargo_of_copy tree --edges normal --prefix none --depth 1 --features "$feature" 2>"$said" | sed 1d) == "$feature "* ]]
    verdict "with $feature the crate stands on that"
done
if ((${#tests[@]} > 0)); then
    fakes() { METSUWAN_FAKES=$run/fakes METSUWAN_CERTS=$certs cargo_of_copy test --no-fail-fast --release "$@"; }
    fakes --features "$(features_here)" "${tests[@]}" -- --include-ignored >"$said" 2>&1
    status=$?
    fakes --features "$(features_here)" --test servers -- --include-ignored features:: >>"$said" 2>&1
    status+=" $?"
    sed -nE 's/^test (features::)?([A-Za-z0-9_:]+) \.\.\. ok$/ok      rust: features: \2/p
        s/^test (features::)?([A-Za-z0-9_:]+) \.\.\. FAILED$/FAILED  rust: features: \2/p' "$said" | tee tests
    # Those that failed have said so.
    [[ $status == '0 0' ]] || { [[ $status =~ ^(0|101)\ (0|101)$ ]] && grep -q '^FAILED ' tests; }
    verdict 'the tests of the features are run'
    cargo_of_copy test --release --features "$(features_here)" --doc -- asynchronous manager >"$said" 2>&1
    verdict 'the examples of the features are good'
fi
