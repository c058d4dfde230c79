#!/bin/sh
# Times how a Get Attributes response of 25, 50, 100 and 200 attributes is read, to see that it is linear in its
# bytes. Wants `rt` and `python3`. Writes nothing into the repository.
set -eu
top=$(cd "$(dirname "$0")/.." && pwd)
work=$(mktemp -d)
trap 'rm -rf "$work"' EXIT
mkdir -p "$work/crates/bench/src"
for crate in wire tags shape enums codes names keys types response_objects response; do
    mkdir "$work/crates/kmip_$crate"
    for part in src specs proofs; do
        [ ! -d "$top/crates/kmip_$crate/$part" ] || cp -r "$top/crates/kmip_$crate/$part" "$work/crates/kmip_$crate/"
    done
done
cp "$top/HANDLES" "$work/"
grep -E '^kmip_(wire|tags|shape|enums|codes|names|keys|types|response_objects|response):' "$top/crates.txt" >"$work/crates.txt"
echo 'bench: kmip_wire kmip_shape kmip_enums kmip_types kmip_response_objects kmip_response' >>"$work/crates.txt"
cat >"$work/crates/bench/src/main.rt" <<'EOR'
// Reads the payload on standard input again and again, and prints how many attributes were read and how long it took.
#![tactic(auto)]

use kmip_response::{GetAttributesResponsePayload, from_slice};
use std::env;
use std::io::{self, Read};
use std::time::Instant;

fn main(rt: HostRuntime) -> io::Result<()> {
    let mut bytes = Vec::new(rt.alloc());
    rt.stdin().read_to_end(&mut bytes)?;
    let mut count: u32 = 1;
    for word in env::args(&rt)? {
        if let Ok(number) = word.parse() {
            count = number;
        }
    }
    let start = Instant::now(&rt)?;
    let mut read: usize = 0;
    for _ in 0..count {
        if let Ok(payload) = from_slice::<GetAttributesResponsePayload>(rt.alloc(), &bytes) {
            if let Some(attributes) = payload.attributes {
                read = attributes.len();
            }
        }
    }
    let nanos = start.elapsed(&rt)?.as_nanos();
    println!(rt; "{read} {nanos}")?;
    Ok(())
}
EOR
python3 - "$work" <<'EOR'
import struct, sys

def head(tag, kind, value):
    return bytes([0x42, tag >> 8 & 255, tag & 255, kind]) + struct.pack('>I', len(value)) + value + b'\0' * (-len(value) % 8)

for n in (25, 50, 100, 200):
    body = head(0x94, 7, b'k1')
    for i in range(n):
        name = head(0x0A, 7, b'x-attribute-%d' % i)
        value = head(0x0B, 7, b'a value of some length') if i % 2 else head(0x0B, 2, struct.pack('>i', i))
        body += head(0x08, 1, name + value)
    open('%s/%d' % (sys.argv[1], n), 'wb').write(head(0x7C, 1, body))
EOR
cd "$work/crates/bench"
for n in 25 50 100 200; do
    size=$(wc -c <"$work/$n")
    rt try -- 100 <"$work/$n" 2>/dev/null | awk -v n="$n" -v size="$size" '
        NF == 2 && $1 == n { printf "%d attributes, %d bytes: %.1f microseconds, %.2f ns a byte\n", n, size, $2 / 1e5, $2 / 100 / size; found = 1 }
        END { if (!found) { print "not read: " n; exit 1 } }'
done
