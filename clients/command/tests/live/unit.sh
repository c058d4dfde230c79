# shellcheck shell=bash disable=SC2154
# The crate's own tests, and its table.
cargo_of_command test >"$said" 2>&1
status=$?
sed -nE 's/^test ([A-Za-z0-9_:]+) \.\.\. ok$/ok      command: \1/p
    s/^test ([A-Za-z0-9_:]+) \.\.\. FAILED$/FAILED  command: \1/p' "$said" | tee tests
# Those that failed have said so.
((status == 0)) || { ((status == 101)) && grep -q '^FAILED ' tests; }
verdict 'the tests of the crate are run'
{ "$KMIP_CALL" --grammar && "$KMIP_CALL" --operations; } | "$python" -B "$top/clients/command/generate.py" --check >"$said" 2>&1
verdict 'the table has the calls that kmip_call --grammar and --operations print'
{ "$KMIP_CALL" --grammar && "$KMIP_CALL" --operations; } | sed 's/^derive-key ID METHOD/& [new=HEX]/' |
    "$python" -B "$top/clients/command/generate.py" --check >"$said" 2>&1
(($? == 1))
verdict 'an option that it has not is found'
