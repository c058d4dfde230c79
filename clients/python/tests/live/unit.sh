# shellcheck shell=bash
# The package's own tests.
export METSUWAN_FAKES=$run/fakes METSUWAN_CERTS=$certs LIBMETSUWAN=$built/libmetsuwan.so
package=$top/clients/python
timeout $((100 * slack)) "$python" -B -W error::ResourceWarning -m unittest discover -v -t "$package" \
    "$package/tests" >"$said" 2>&1
status=$?
sed -nE 's/^ *(test_[a-z0-9_]+) .*\.\.\. ok$/ok      python: \1/p
    s/^ *(test_[a-z0-9_]+) .*\.\.\. (FAIL|ERROR)$/FAILED  python: \1/p
    s/^ *(test_[a-z0-9_]+) .*\.\.\. (skipped.*)$/skipped python: \1 \2/p' "$said" | tee tests
# Those that failed have said so.
((status == 0)) || { ((status == 1)) && grep -q '^FAILED ' tests; }
verdict 'the tests of the package are run'
