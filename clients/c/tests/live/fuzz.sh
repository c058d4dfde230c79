# shellcheck shell=bash
# The corpus of fuzz_library.sh is made, and some rounds of it find nothing: responses that are changed in structure.
export LIBMETSUWAN=$built/libmetsuwan.so PYTHONDONTWRITEBYTECODE=1
mkdir corpus
timeout $((30 * slack)) "$python" "$top/clients/c/tests/fuzz/corpus.py" corpus "$certs" >"$said" 2>&1
verdict 'the corpus is made'
timeout $((30 * slack)) "$python" "$top/clients/c/tests/fuzz/trees.py" corpus 1 300 >"$said" 2>&1
verdict 'responses of another structure are answered as their trees say'
