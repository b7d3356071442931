#!/bin/sh
# journals.sh [--short] [--seed N]   compares the listings of the program recorder with those of a model over the source crate's rope. No word:
#   some minutes. --short: some seconds. --seed N: other journals.
# ORACLE=FOLDER  the source crate's folder (oracle.sh)
# RECORDER=FILE  the program, instead of building it
# UNPROVED=yes   compiles the program with nothing proved: for the gate, which has proved the same sources
set -eu
root=$(cd "$(dirname "$0")/.." && pwd)
[ -z "${RECORDER-}" ] || RECORDER=$(cd "$(dirname "$RECORDER")" && pwd)/$(basename "$RECORDER")

cd "$root"
. tests/build.sh
why=$(tests/oracle.sh) || {
    [ -n "$why" ] || exit 1
    skip "$why"
}
mkdir -p target/journals

# The crate notes links these two. None of their calls is asked here, so that any will do.
[ -f "$archives/libnote_c.a" ] && [ -f "$archives/libedits_c.a" ] || archive note_c edits_c
export TEXT_C_DIR=$root/$archives

# Beside the comparison's, as both build the source crate. Its warnings go to the log; they are not ours to mend.
CARGO_TARGET_DIR=target/compare cargo build --quiet --release --offline --config target/oracle/.cargo/config.toml \
    --manifest-path tests/journals/Cargo.toml 2>target/journals.log || {
    cat target/journals.log >&2
    exit 1
}

if [ -n "${RECORDER-}" ]; then
    set -- "$@" -- "$RECORDER"
elif proves; then
    prove_program
    set -- "$@" -- crates/recorder/out/recorder
else
    program target/journals/recorder
    set -- "$@" -- target/journals/recorder
fi
exec target/compare/release/journals "$@"
