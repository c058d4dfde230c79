// A plain Rust loop that checks a TTLV message, for comparison with the proved one.
use std::io::{self, Read};
use std::time::Instant;

const DEEPEST: usize = 64;

fn is_value(kind: u8, value: &[u8]) -> bool {
    match kind {
        2 | 5 | 10 => value.len() == 4,
        3 | 9 => value.len() == 8,
        4 => value.len() % 8 == 0,
        6 => value.len() == 8 && value[..7] == [0; 7] && value[7] < 2,
        7 => std::str::from_utf8(value).is_ok(),
        8 => true,
        _ => false,
    }
}

fn check(bytes: &[u8]) -> bool {
    let mut ends = [0usize; DEEPEST];
    let mut open = 0;
    let mut position = 0;
    loop {
        while open > 0 && position == ends[open - 1] {
            open -= 1;
            if open == 0 {
                return position == bytes.len();
            }
        }
        let end = if open == 0 { bytes.len() } else { ends[open - 1] };
        if end - position < 8 {
            return false;
        }
        let head = &bytes[position..position + 8];
        let length = u32::from_be_bytes([head[4], head[5], head[6], head[7]]) as usize;
        let padded = length.div_ceil(8) * 8;
        if end - position - 8 < padded {
            return false;
        }
        position += 8;
        if head[3] == 1 {
            if open == DEEPEST {
                return false;
            }
            ends[open] = position + length;
            open += 1;
        } else {
            if !is_value(head[3], &bytes[position..position + length]) {
                return false;
            }
            position += padded;
            if open == 0 {
                return position == bytes.len();
            }
        }
    }
}

fn main() {
    let mut bytes = Vec::new();
    io::stdin().read_to_end(&mut bytes).unwrap();
    let count: u32 = std::env::args().nth(1).unwrap().parse().unwrap();
    let start = Instant::now();
    let mut good = 0;
    for round in 0..count {
        bytes[2] = round as u8;
        if check(&bytes) {
            good += 1;
        }
    }
    let nanos = start.elapsed().as_nanos();
    println!("{good} {nanos}");
}
