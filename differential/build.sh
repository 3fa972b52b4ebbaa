# Builds the archives for C and the bench; sets `bench` to its program. Read by the other scripts; those that set
# `with_library` get the calls on lent memory too, and those that set `with_cores` the calls without the test of memory.
#   ARCHIVE         another archive with the call cardrun_lines (default: what tools/build-library.sh makes)
#   LIBRARY         another archive with the calls on lent memory (default: what tools/build-library.sh makes)
#   CORES           another archive of bench/cores (default: what bench/cores.sh makes)
#   FB_SRC          the folder of the three Rust files, which are not in the repository; it has no default
#   CARGO_REGISTRY  where Debian's librust packages put their sources
set -e
root=$(cd "$here/.." && pwd)
if [ -z "$FB_SRC" ]; then
    echo "The comparison needs util.rs, dual_module.rs and dual_module_serial.rs from src/ of yuewuo/fusion-blossom" >&2
    echo "at commit fa690600e4, which are not in this repository: FB_SRC=FOLDER names the folder that has them." >&2
    exit 2
fi
FB_SRC=$(cd "$FB_SRC" && pwd)
export FB_SRC
mkdir -p "$root/target"
if [ -z "$ARCHIVE" ] || { [ -n "$with_library" ] && [ -z "$LIBRARY" ]; }; then
    "$root/tools/build-library.sh" > "$root/target/differential.log" 2>&1 || {
        tail "$root/target/differential.log"
        exit 1
    }
fi
export ARCHIVE="${ARCHIVE:-$root/target/lib/libcardrun_lines.a}"
export CARGO_TARGET_DIR="${CARGO_TARGET_DIR:-$root/target/differential}"
registry=${CARGO_REGISTRY:-/usr/share/cargo/registry}
if [ ! -d "$registry/parking_lot-0.12.1" ] && [ -z "$CARGO_REGISTRY" ]; then
    echo "needs Debian's packages librust-{derivative,serde,serde-json,cfg-if,rand-xoshiro,parking-lot}-dev" >&2
fi
if [ -n "$with_library" ]; then
    export LIBRARY="${LIBRARY:-$root/target/lib/libfusion_blossom.a}"
else
    unset LIBRARY
fi
if [ -n "$with_cores" ]; then
    [ -n "$CORES" ] || CORES=$("$root/bench/cores.sh")
    export CORES
else
    unset CORES
fi
(cd "$here" && cargo build --quiet --release --offline --config 'source.crates-io.replace-with="debian"' \
    --config "source.debian.directory=\"$registry\"")
bench=$CARGO_TARGET_DIR/release/differential
