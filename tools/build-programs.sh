#!/bin/sh
# build-programs.sh [NAME ..]: proves programs of crates.txt and builds them as target/bin/NAME; without a name cardrun
# and tablecheck. Needs the Rattle toolchain.
set -e
cd "$(dirname "$0")/.."
mkdir -p target/bin
for name in ${*:-cardrun tablecheck}; do
    # `rt run` leaves the program in the crate's out/, and then runs it: on no input
    (cd "crates/$name" && rt run) < /dev/null > "target/bin/$name.log" 2>&1 || {
        tail "target/bin/$name.log" >&2
        exit 1
    }
    cp "crates/$name/out/$name" "target/bin/$name.new"
    mv "target/bin/$name.new" "target/bin/$name"
    echo "target/bin/$name"
done
