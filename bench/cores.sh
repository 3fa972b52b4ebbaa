#!/bin/sh
# Proves the crate cores/ and writes target/staticlib/libcores.a, which makes calls with no soundness test before each,
# for timing. Its files end in .txt because a file of Rattle in the repository belongs to a crate of crates.txt. Needs
# the Rattle toolchain.
set -e
here=$(cd "$(dirname "$0")" && pwd)
root=$(dirname "$here")
work=$(mktemp -d)
trap 'rm -rf "$work"' EXIT
(cd "$root" && tar cf - --exclude=out crates crates.txt) | tar xf - -C "$work"
git init -q "$work"
cp -r "$here/cores" "$work/crates/cores"
find "$work/crates/cores" -name '*.txt' | while read -r f; do mv "$f" "${f%.txt}"; done
echo "cores staticlib: refusal graph open_graph pass answers update_length growth calls blossom reachable records record_call record_step" >> "$work/crates.txt"
(cd "$work/crates/cores" && rt lib > "$work/build.log" 2>&1) || { tail "$work/build.log" >&2; exit 1; }
mkdir -p "$root/target/staticlib"
cp "$work/crates/cores/out/libcores.a" "$root/target/staticlib/libcores.a"
echo "$root/target/staticlib/libcores.a"
