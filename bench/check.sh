#!/bin/sh
# Times `check` of kmip_wire on messages of 152 bytes, 64 KiB and 16 MiB, beside a plain Rust loop.
# Wants `rt`, `rustc` and `python3`. Writes nothing into the repository.
set -eu
top=$(cd "$(dirname "$0")/.." && pwd)
work=$(mktemp -d)
trap 'rm -rf "$work"' EXIT
mkdir -p "$work/crates/bench/src"
cp -r "$top/crates/kmip_wire" "$work/crates/"
cp "$top/HANDLES" "$work/"
printf 'kmip_wire:\nbench: kmip_wire\n' >"$work/crates.txt"
cat >"$work/crates/bench/src/main.rt" <<'EOF'
// Checks the message on standard input again and again, and prints how many were good and how long that took.
#![tactic(auto)]

use kmip_wire::check;
use std::env;
use std::io::{self, Read};
use std::time::Instant;

fn rounds(bytes: &mut [u8], rounds: u32) -> u32 {
    let mut good = 0;
    for round in 0..rounds {
        if bytes.len() > 2 {
            bytes[2] = (round % 256) as u8;
        }
        if check(bytes) && good < u32::MAX {
            good += 1;
        }
    }
    good
}

fn main(rt: HostRuntime) -> io::Result<()> {
    let mut bytes = Vec::new(rt.alloc());
    rt.stdin().read_to_end(&mut bytes)?;
    let mut count = 1;
    for word in env::args(&rt)? {
        if let Ok(number) = word.parse() {
            count = number;
        }
    }
    let start = Instant::now(&rt)?;
    let good = rounds(&mut bytes, count);
    let nanos = start.elapsed(&rt)?.as_nanos();
    println!(rt; "{good} {nanos}")?;
    Ok(())
}
EOF
python3 "$top/bench/messages.py" "$work"
rustc -O -o "$work/plain" "$top/bench/plain_check.rs"
(cd "$work/crates/bench" && rt run -- 1 <"$work/small" >"$work/log" 2>&1) || { tail -20 "$work/log"; exit 1; }
proved=$(find "$work/crates/bench/out" -maxdepth 1 -type f -perm -u+x -name 'bench*' | head -1)
# Both in turn, nine times: a machine that does other work slows one run and not the next. The best of each counts.
for row in 'small 1000000' 'middle 3000' 'large 12'; do
    # shellcheck disable=SC2086  # a row is words
    set -- $row
    size=$(wc -c <"$work/$1")
    for _ in 1 2 3 4 5 6 7 8 9; do
        echo "proved $("$proved" "$2" <"$work/$1")"
        echo "plain $("$work/plain" "$2" <"$work/$1")"
    done | awk -v name="$1" -v size="$size" -v rounds="$2" '
        $2 != rounds { print "not all good"; exit 1 }
        { speed = size * rounds / $3; if (speed > best[$1]) best[$1] = speed }
        END { printf "%s, %d bytes: proved %.2f GB/s, plain %.2f GB/s, ratio %.2f\n", name, size, best["proved"], best["plain"], best["proved"] / best["plain"] }'
done
