#!/usr/bin/env python3
"""Runs the passes of crate `pass` on the preparations of the record streams, and compares.

    tests/passes/compare.py [--count 2000] [--seed 1]

Every preparation that the Python model makes while it runs the streams gives a block before it and a block after it. A small
program lends the block to `prepare_dual_node_growth` and writes the number of passes and a checksum of the block that is left
(words that are free set to zero) and of the scratch. `rt try` runs it, with no proof, compiled with checks, and on its
interpreter as far as some millions of steps go.
The model is tests/model, the streams are those of tests/vectors, or of the file that VECTORS names.
"""
import argparse, copy, os, random, shutil, struct, subprocess, sys, tempfile

TOP = os.path.dirname(os.path.dirname(os.path.dirname(os.path.abspath(__file__))))
sys.path.insert(0, os.path.join(TOP, 'tests'))
import model as M  # noqa: E402
from model import passes  # noqa: E402
from model.words import scratch_length, words  # noqa: E402

PROGRAM = '''#![tactic(auto)]

// Lends each block of the input to a preparation.

use std::io;
use std::io::Read;

fn number(b: &[u8], i: usize) -> usize {
    let mut x = 0;
    let mut k = 8;
    while 0 < k {
        k -= 1;
        x = x * 256 + b[8 * i + k] as usize;
    }
    x
}

fn fill(b: &mut [i64], bytes: &[u8], n: usize) {
    let mut i = 0;
    while i < n {
        b[i] = number(bytes, i) as i64;
        i += 1;
    }
}

// The words of free rows and of the free store become zero.
fn tidy(b: &mut [i64]) {
    let v = b[0] as usize;
    let e = b[1] as usize;
    let n = b[2] as usize;
    let l = b[3] as usize;
    let c = b[4] as usize;
    let rows = 16 + 4 * v + 11 * e;
    let mut i = c;
    while i < n {
        let mut k = 0;
        while k < 7 {
            b[rows + k * n + i] = 0;
            k += 1;
        }
        i += 1;
    }
    let mut used = 0;
    i = 0;
    while i < c {
        used += b[rows + 5 * n + i] as usize + b[rows + 6 * n + i] as usize;
        i += 1;
    }
    while used < l {
        b[rows + 7 * n + used] = 0;
        used += 1;
    }
    i = b[5] as usize;
    while i < n {
        b[rows + 7 * n + l + i] = 0;
        i += 1;
    }
}

fn sum(b: &[i64], start: usize) -> usize {
    let mut h = start;
    let mut i = 0;
    while i < b.len() {
        h = (h * 31 + b[i] as usize % 1000000007) % 1000000007;
        i += 1;
    }
    h
}

// As many bytes as there are, up to the length of the buffer.
fn read_full(stdin: &mut impl Read, bytes: &mut [u8]) -> io::Result<usize> {
    let mut n = 0;
    let mut more = true;
    while more & (n < bytes.len()) {
        let got = stdin.read(&mut bytes[n..])?;
        n += got;
        more = got != 0;
    }
    Ok(n)
}

fn main(rt: HostRuntime) -> io::Result<()> {
    let mut stdin = rt.stdin();
    let mut head = [0u8; 32];
    let mut bytes = [0u8; 65536];
    let mut block = [0i64; 8192];
    let mut scratch = [0i64; 1024];
    while read_full(&mut stdin, &mut head)? == 32 {
        let k = number(&head, 0);
        let m = number(&head, 1);
        let n = number(&head, 2);
        let d = number(&head, 3);
        read_full(&mut stdin, &mut bytes[0..8 * k])?;
        fill(&mut block, &bytes, k);
        let passes = prepare::prepare_dual_node_growth(&mut block[0..k], &mut scratch[0..m], n, d);
        tidy(&mut block[0..k]);
        let left = sum(&scratch[0..m], sum(&block[0..k], 7));
        println!(rt; "{passes} {left}")?;
    }
    Ok(())
}
'''


def checksum(ws, h=7):
    for w in ws: h = (h * 31 + w % 1000000007) % 1000000007
    return h


def preparations():
    """Every preparation of every stream, as (state before, node, direction, passes, state after)."""
    seen, plain = [], passes.do_prepare

    def watched(st, n, direction):
        before = copy.deepcopy(st)
        count = plain(st, n, direction)
        seen.append((before, n, direction, count, copy.deepcopy(st)))
        return count

    passes.do_prepare = watched
    for records, _ in M.frames():
        M.lines(records)
    return seen


def crates_below(name):
    """A crate and all that it rests on, each with what it depends on."""
    lines = [l.partition('#')[0].partition(':') for l in open(os.path.join(TOP, 'crates.txt'))]
    needs, out, todo = {c.strip(): d.split() for c, _, d in lines if c.strip()}, {}, [name]
    while todo:
        c = todo.pop()
        if c not in out and c in needs:
            out[c] = needs[c]
            todo += needs[c]
    return out


def main():
    p = argparse.ArgumentParser(description=__doc__, formatter_class=argparse.RawDescriptionHelpFormatter)
    p.add_argument('--count', type=int, default=2000)
    p.add_argument('--seed', type=int, default=1)
    o = p.parse_args()
    every = preparations()
    busy = [x for x in every if words(x[0]) != words(x[4])]
    rng = random.Random(o.seed)
    chosen = rng.sample(busy, min(o.count * 3 // 4, len(busy)))
    chosen += rng.sample(every, min(o.count - len(chosen), len(every)))
    data, lines = b'', b''
    for before, n, d, count, after in chosen:
        ws = words(before)
        data += struct.pack('<4q', len(ws), scratch_length(before), n, d) + struct.pack(f'<{len(ws)}q', *ws)
        lines += f'{count} {checksum([0] * scratch_length(after), checksum(words(after)))}\n'.encode()
    top = tempfile.mkdtemp()
    below = crates_below('prepare')
    for c in below:
        shutil.copytree(os.path.join(TOP, 'crates', c), os.path.join(top, 'crates', c), ignore=shutil.ignore_patterns('out'))
    os.makedirs(os.path.join(top, 'crates', 'drive', 'src'))
    lines_of = [f'{c}: {" ".join(d)}\n' for c, d in {**below, 'drive': list(below)}.items()]
    open(os.path.join(top, 'crates.txt'), 'w').write(''.join(lines_of))
    drive = os.path.join(top, 'crates', 'drive')
    open(os.path.join(drive, 'src', 'main.rt'), 'w').write(PROGRAM)
    subprocess.run(['git', 'init', '-q', top], check=True)
    run = subprocess.run(['rt', 'try'], cwd=drive, input=data, capture_output=True)
    equal = run.returncode == 0 and run.stdout == lines
    if not equal:
        print(run.stderr.decode(errors='replace')[-2000:])
        print(sum(a != b for a, b in zip(run.stdout.splitlines(), lines.splitlines())), 'lines differ')
    most = max(x[3] for x in every)
    print(f'{len(every)} preparations in the streams, {len(busy)} of which change the block, {most} passes at the most;'
          f' {len(chosen)} run, {sum(x[2] for x in chosen)} of them growing,'
          f' {sum(x[3] > 1 for x in chosen)} of more than one pass: ' + ('equal' if equal else 'NOT EQUAL'))
    shutil.rmtree(top)
    sys.exit(0 if equal else 1)


if __name__ == '__main__':
    main()
