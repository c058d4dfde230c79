# shellcheck shell=bash
# The crate's own tests.
METSUWAN_FAKES=$run/fakes METSUWAN_CERTS=$certs cargo_of_copy test --no-fail-fast --release --features openssl \
    -- --include-ignored >"$said" 2>&1
status=$?
sed -nE 's/^test ([A-Za-z0-9_:]+) \.\.\. ok$/ok      rust: \1/p
    s/^test ([A-Za-z0-9_:]+) \.\.\. FAILED$/FAILED  rust: \1/p' "$said" | tee tests
# Those that failed have said so.
((status == 0)) || { ((status == 101)) && grep -q '^FAILED ' tests; }
verdict 'the tests of the crate are run'
# The calls of the table are those of the program.
"$built/kmip_call" --operations | sed -nE 's/^([a-z-]+) .*/\1/p' >names
[[ -s names ]] && sed -nE '/^const TABLE/,/^\];/s/^    \("([a-z-]+)".*/\1/p' "$top/clients/rust/src/word.rs" |
    diff names - >"$said" 2>&1
verdict 'the calls of the table are those of kmip_call'
