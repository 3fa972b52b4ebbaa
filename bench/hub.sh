#!/bin/sh
# hub.sh BEFORE: times the test for refusal 5 at a vertex with many edges, before request N3 (docs/changes/N3.md) and
# now, in one run. BEFORE is the archive libcores.a that bench/cores.sh has made in a clone of the tree before it. Needs
# the Rattle toolchain, cc and python3.
set -e
here=$(cd "$(dirname "$0")" && pwd)
before=${1:?the archive libcores.a of the tree before}
after=${CORES:-$("$here/cores.sh")}
work=$(mktemp -d)
trap 'rm -rf "$work"' EXIT
for which in before after; do
    eval archive=\$$which
    cc -shared -o "$work/$which.so" -Wl,--whole-archive "$archive" -Wl,--no-whole-archive
done
python3 "$here/hub.py" "$work/before.so" "$work/after.so"
