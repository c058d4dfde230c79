#!/bin/sh
# Times `make 100000` of the built program: the best of five runs, in user seconds. With the word `callgrind` it also
# says which functions take the most instructions (wants valgrind). Wants `rt` and `python3`; writes nothing into the
# repository but what `rt run` leaves in crates/kmip_run/out.
set -eu
top=$(cd "$(dirname "$0")/.." && pwd)
work=$(mktemp -d)
trap 'rm -rf "$work"' EXIT
(cd "$top/crates/kmip_run" && rt run -- make 0 >"$work/log" 2>&1) || { tail -20 "$work/log"; exit 1; }
program=$(find "$top/crates/kmip_run/out" -maxdepth 1 -type f -perm -u+x -name 'kmip_run*' | head -1)
python3 - "$program" <<'PY'
import resource
import subprocess
import sys

best = None
written = set()
for _ in range(5):
    before = resource.getrusage(resource.RUSAGE_CHILDREN).ru_utime
    done = subprocess.run([sys.argv[1], "make", "100000"], capture_output=True, check=True)
    spent = resource.getrusage(resource.RUSAGE_CHILDREN).ru_utime - before
    best = spent if best is None else min(best, spent)
    written.add(done.stdout)
assert len(written) == 1, "two runs wrote different bytes"
lines = dict(line.split() for line in done.stdout.decode().splitlines())
assert int(lines["ok"]) + int(lines["errors"]) == 100000, "not each exchange was answered"
print(done.stdout.decode(), end="")
print(f"best of five: {best:.2f} user seconds")
PY
[ "${1:-}" = callgrind ] || exit 0
valgrind --tool=callgrind --callgrind-out-file="$work/calls" "$program" make 10000 >"$work/log" 2>&1
callgrind_annotate "$work/calls" | sed -n 1,60p
