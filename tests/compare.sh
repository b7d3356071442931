#!/bin/sh
# compare.sh [--short | --edits [--short] | --record FILE | --record-lists FILE]   compares the library with the source crate.
#   no word: every comparison (some minutes). --short: some seconds. --edits: the edits and marks of a note alone. --record FILE: writes a
#   sample of the source's answers on texts and leaves. --record-lists FILE: one of its answers on child lists.
# ORACLE=FOLDER      the source crate's folder (oracle.sh)
# TEXT_C_DIR=FOLDER  link the libtext_c.a, libleaf_c.a, liblist_c.a, libnote_c.a, libedits_c.a and libreading.a there instead of building them
# UNPROVED=yes       compiles these with nothing proved: for the gate, which has proved the same sources
set -eu
root=$(cd "$(dirname "$0")/.." && pwd)

# What the caller named is meant from the caller's folder.
[ -z "${TEXT_C_DIR-}" ] || TEXT_C_DIR=$(cd "$TEXT_C_DIR" && pwd)
if [ $# -eq 2 ]; then
    case $1:$2 in
    --record*:/*) ;;
    --record:* | --record-lists:*) set -- "$1" "$PWD/$2" ;;
    esac
fi

cd "$root"
. tests/build.sh
why=$(tests/oracle.sh) || {
    [ -n "$why" ] || exit 1
    skip "$why"
}
if [ -z "${TEXT_C_DIR-}" ]; then
    archive text_c leaf_c list_c note_c edits_c
    # No crate of the repository: nothing proves it.
    compile reading tests/compare/reading.rt.txt answer reader
    TEXT_C_DIR=$root/$archives
fi
export TEXT_C_DIR

# The source crate's warnings go to the log; they are not ours to mend.
CARGO_TARGET_DIR=target/compare cargo build --quiet --release --offline --config target/oracle/.cargo/config.toml \
    --manifest-path tests/compare/Cargo.toml 2>target/compare.log || {
    cat target/compare.log >&2
    exit 1
}
exec target/compare/release/compare "$@"
