#!/usr/bin/env python3
"""Times the client beside one by hand in Rust without proofs, in turn, by user time.

usage: bench/client.py [--proved] [ROUNDS]      each program is run so many times, 11 if it is left out

It prints a line for each of three things that both do, with the least and the median of the rounds in user time and their
ratios, of which a smaller one is faster here, and the ratios where the time of the system counts too:
  make       `make 100000`: each response is made, fed to a link in memory, and read by a call; the bytes of both are compared
  small      400,000 calls over a link that was fed before: the client alone
  large      9 responses of 16 MiB: read into their place, checked, and copied to the payload

Both are optimized. Ours is built by tools/build.py: with --proved as users run it, over what `rt ci` kept on this machine
(it proves what is lacking), else without proof and with the inline hints of a proved build. The plain one is made from
bench/client/plain.rs. Wants `rt`, `rustc` and some 600 MB of memory; writes nothing into the repository.
"""
import argparse
import os
import resource
import shutil
import subprocess
import sys
import tempfile

HERE = os.path.dirname(os.path.abspath(__file__))
TOP = os.path.dirname(HERE)
sys.path.insert(0, os.path.join(TOP, 'tools', 'live'))
from ttlv import date, integer, octets, response, structure  # noqa: E402

LARGE = 16 << 20
# The ratios that are aimed at.
AIMS = {'make': 0.70, 'small': 0.45, 'large': 1.3}


# Our program of calls alone.
CALLS = r'''// N exchanges of random bytes over a link in memory that was fed the N responses before: the client alone, no generator.
#![tactic(auto)]

use kmip_client::ClientBuilder;
use kmip_link::MemoryLink;
use std::env;
use std::io::{self, Read};

fn main(rt: HostRuntime) -> io::Result<()> {
    let mut bytes = Vec::new(rt.alloc());
    rt.stdin().read_to_end(&mut bytes)?;
    let mut count: u32 = 1;
    for word in env::args(&rt)? {
        if let Ok(number) = word.parse() {
            count = number;
        }
    }
    let mut link = MemoryLink::new(rt.alloc());
    for _ in 0..count {
        let _ = link.feed(&bytes);
    }
    let mut client = ClientBuilder::new(link).build();
    let mut good: u32 = 0;
    for _ in 0..count {
        if let Ok(payload) = client.rng_retrieve(rt.alloc(), 16) {
            if payload.random_bytes.as_slice().len() > 0 && good < u32::MAX {
                good += 1;
            }
        }
    }
    println!(rt; "{good}")?;
    Ok(())
}
'''


def response_to(data):
    """A response to RNG Retrieve in KMIP 1.2 with these bytes."""
    version = structure(0x420069, integer(0x42006A, 1), integer(0x42006B, 2))
    header = structure(0x42007A, version, date(0x420092, 1), integer(0x42000D, 1))
    return response(0x25, [octets(0x4200C2, data)], header)


def build(work, how):
    """The three programs: ours for `make`, ours for calls alone, and the plain one."""
    os.makedirs(f'{work}/top/crates/client_bench/src')
    for name in os.listdir(f'{TOP}/crates'):
        shutil.copytree(f'{TOP}/crates/{name}', f'{work}/top/crates/{name}', ignore=shutil.ignore_patterns('out', 'must-fail'))
    with open(f'{work}/top/crates/client_bench/src/main.rt', 'w', encoding='utf-8') as out:
        out.write(CALLS)
    with open(f'{work}/top/crates/client_bench/stdout', 'w', encoding='utf-8') as out:
        out.write('0\n')  # what it writes of no responses
    shutil.copy(f'{TOP}/HANDLES', f'{work}/top')
    with open(f'{TOP}/crates.txt', encoding='utf-8') as rows, open(f'{work}/top/crates.txt', 'w', encoding='utf-8') as out:
        for row in rows:
            out.write(row)
            if row.startswith('kmip_client:'):
                out.write('client_bench: kmip_client' + row.partition(':')[2])
    for crate in ('kmip_run', 'client_bench'):
        words = [sys.executable, f'{TOP}/tools/build.py', how, 'program', crate, f'{work}/{crate}', f'{work}/top']
        made = subprocess.run(words, stdin=subprocess.DEVNULL, stdout=subprocess.PIPE, stderr=subprocess.STDOUT,
                              text=True, errors='replace', check=False)
        if made.returncode:
            sys.exit(f'client.py: {crate} is not built:\n{made.stdout}')
    subprocess.run(['rustc', '--edition', '2021', '-O', '-o', f'{work}/plain', f'{HERE}/client/plain.rs'], check=True)


def run(words, feed):
    """The user seconds of a program, those with the system's, and what it wrote."""
    before = resource.getrusage(resource.RUSAGE_CHILDREN)
    with open(feed, 'rb') as given:
        written = subprocess.run(words, stdin=given, stdout=subprocess.PIPE, check=True).stdout
    after = resource.getrusage(resource.RUSAGE_CHILDREN)
    user = after.ru_utime - before.ru_utime
    return user, user + after.ru_stime - before.ru_stime, written


def ratios(ours, plain):
    """The least and the median of both, and the two ratios."""
    ours, plain = sorted(ours), sorted(plain)
    half = len(ours) // 2
    return ours[0], ours[half], plain[0], plain[half], ours[0] / plain[0], ours[half] / plain[half]


def compare(name, ours, plain, feed, rounds):
    user, whole = ([], []), ([], [])
    for _ in range(rounds):
        texts = []
        for at, words in enumerate((ours, plain)):
            seconds, with_system, written = run(words, feed)
            user[at].append(seconds)
            whole[at].append(with_system)
            texts.append(written.split())
        if texts[0] != texts[1]:
            sys.exit(f'{name}: the programs wrote {texts[0][:8]} and {texts[1][:8]}')
    of_user, of_whole = ratios(*user), ratios(*whole)
    print(f'{name}: ours {of_user[0]:.3f} s (median {of_user[1]:.3f}), plain {of_user[2]:.3f} s (median {of_user[3]:.3f}), '
          f'ratio {of_user[4]:.2f} (median {of_user[5]:.2f}), aim {AIMS[name]:.2f}; '
          f'with the system\'s time {of_whole[4]:.2f} (median {of_whole[5]:.2f})', flush=True)


def main():
    words = argparse.ArgumentParser(description='Times the client beside one by hand in Rust without proofs.')
    words.add_argument('--proved', action='store_true', help='time the proved programs')
    words.add_argument('rounds', nargs='?', type=int, default=11)
    given = words.parse_args()
    work = tempfile.mkdtemp(prefix='client-bench-')
    try:
        build(work, '--proved' if given.proved else '--unproved')
        feeds = {'none': b'', 'small': response_to(bytes.fromhex('deadbeef')), 'large': response_to(bytes(LARGE))}
        for name, value in feeds.items():
            with open(f'{work}/{name}.bin', 'wb') as out:
                out.write(value)
        plain = f'{work}/plain'
        compare('make', [f'{work}/kmip_run', 'make', '100000'], [plain, 'make', '100000'], f'{work}/none.bin', given.rounds)
        compare('small', [f'{work}/client_bench', '400000'], [plain, 'answer', '400000'], f'{work}/small.bin', given.rounds)
        compare('large', [f'{work}/client_bench', '9'], [plain, 'answer', '9'], f'{work}/large.bin', given.rounds)
    finally:
        shutil.rmtree(work)


main()
