#!/bin/sh
# bench.sh [--edits | --growth]   measures the library's counts, every call of a note, how calls grow with it, and what an edit costs beyond the check
#   of the memory, beside plain Rust and the source crate's rope, and prints the tables of docs/PERFORMANCE.md, in half a minute once the library is
#   proved. --edits: what an edit costs beyond the check alone. --growth: how calls grow alone.
# UNPROVED=yes   compiles the library with nothing proved
# ORACLE=FOLDER  the source crate's folder (oracle.sh)
set -eu
root=$(cd "$(dirname "$0")/.." && pwd)
cd "$root"
[ -z "${UNPROVED-}" ] || UNPROVED=bare
. tests/build.sh
why=$(tests/oracle.sh) || {
    [ -n "$why" ] || exit 1
    skip "$why"
}

archive text_c note_c edits_c >&2

# Edits without the check: the same sources but for a check that accepts any memory. They lie outside the checkout, where rt ci wants no such files.
bare=$(mktemp -d)
trap 'rm -rf "$bare"' EXIT
trap 'exit 1' HUP INT TERM
cp crates.txt "$bare/"
for crate in crates/*/; do
    mkdir -p "$bare/$crate"
    cp -R "${crate}src" "$bare/$crate"
done
sed -i '/^pub fn check(/,/^}/ { /^{/,/^}/ c\
{\
    true\
}
}' "$bare/crates/memory/src/lib.rt"
unchecked=$root/target/bench/unchecked
(cd "$bare" && python3 "$root/tests/unproved.py" --bare "$unchecked/libunchecked.a" unchecked "$root/tests/bench/unchecked.rt.txt" answer note_edits note)

# The source crate over a quicker str_indices; its version tells it from the one below target/oracle.
rm -rf target/bench/ropey
cp -R target/oracle target/bench/ropey
rm -r target/bench/ropey/str_indices
cp -R tests/bench/str_indices target/bench/ropey/
sed -i 's/^version = .*/version = "1.6.1-quick"/' target/bench/ropey/Cargo.toml

# The source crate's warnings go to the log; they are not ours to mend.
export TEXT_C_DIR="$root/$archives" UNCHECKED_DIR="$unchecked"
CARGO_TARGET_DIR=target/bench cargo build --quiet --release --offline --config target/oracle/.cargo/config.toml \
    --manifest-path tests/bench/Cargo.toml 2>target/bench.log || {
    cat target/bench.log >&2
    exit 1
}
target/bench/release/bench "$@"
