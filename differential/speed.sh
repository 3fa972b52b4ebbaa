#!/bin/sh
# speed.sh: measures port and Rust and writes docs/SPEED.md.
with_library=yes with_cores=yes
here=$(cd "$(dirname "$0")" && pwd)
. "$here/build.sh"
out=$root/docs/SPEED.md
{
    cat <<'T'
# Speed

Written by `differential/speed.sh`. Both sides read the same records and write the same lines, which is checked, in one
process on one thread: the port by its exported call `cardrun_lines`, the Rust by its own methods behind the records of
differential/rust-side, built for release, without assertions. All calls are accepted ones. Runs alternate; each number
is the best of 60 runs, as nanoseconds a call with reading its record and writing its lines. A ratio below 1 means that
the port is faster.

The Rust's pointers are a stand-in (docs/DIFFERENCES.md): `Arc` with a lock of `parking_lot`, which is taken at each
access. The columns without locks have the same code on pointers that take none. Its records and lines are those of
differential/rust-side/common/session.rs, written with `write!` into a vector of enough space.

T
    model=$(sed -n 's/^model name[^:]*: //p' /proc/cpuinfo | head -1)
    echo "Machine: $(uname -m), \`nproc\` $(nproc), $model. $(rustc --version | cut -d' ' -f1,2)."
    "$bench" speed
    cat <<'T'

## The program, whole processes

`bench/program.py`: `cardrun`, which reads and writes in blocks, and the Rust behind the same records, which reads all
of its input first; one file, lines to /dev/null, the best of 9 runs each, in turn. The lines are the same, which is
checked. First decoding runs on a patch of distance 11, then six defects with small boundaries.

T
    "$root/tools/build-programs.sh" cardrun > /dev/null
    "$bench" stream > "$root/target/stream.records"
    python3 "$root/bench/program.py" --stream "$root/target/stream.records" "$root/target/bin/cardrun" \
        "$bench lines unlocked" "$bench lines"
    echo
    python3 "$root/bench/program.py" "$root/target/bin/cardrun" "$bench lines unlocked" "$bench lines"
} > "$out.new"
mv "$out.new" "$out"
sed -n '/^## /,$p' "$out"
