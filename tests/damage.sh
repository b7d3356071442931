#!/bin/sh
# damage.sh [--short]   asks every call of a note on damaged memories. No word: some minutes. --short: some seconds.
# TEXT_C_DIR=FOLDER  link the libnote_c.a and libedits_c.a there instead of building them
# UNPROVED=yes       compiles these with nothing proved: for the gate, which has proved the same sources
set -eu
root=$(cd "$(dirname "$0")/.." && pwd)
[ -z "${TEXT_C_DIR-}" ] || TEXT_C_DIR=$(cd "$TEXT_C_DIR" && pwd)

cd "$root"
. tests/build.sh
if [ -z "${TEXT_C_DIR-}" ]; then
    archive note_c edits_c
    TEXT_C_DIR=$root/$archives
fi
export TEXT_C_DIR

CARGO_TARGET_DIR=target/damage cargo build --quiet --release --offline --manifest-path tests/notes/Cargo.toml
exec target/damage/release/damage "$@"
