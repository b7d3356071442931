#!/bin/sh
# fault.sh   shows the fault of the source crate's insert by its public calls, on its published sizes and on document 01's, with the same insertions
#   into a note of the library. Fails if the fault does not show, and if the note's text is not the string's.
# ORACLE=FOLDER  the source crate's folder (oracle.sh)
# UNPROVED=yes   compiles the library with nothing proved: for the gate, which has proved the same sources
set -eu
root=$(cd "$(dirname "$0")/.." && pwd)
cd "$root"
. tests/build.sh
why=$(tests/oracle.sh) || {
    [ -n "$why" ] || exit 1
    skip "$why"
}
archive note_c edits_c
join "$archives"
export WOLAMIVENS_DIR="$root/$archives"

# lay NAME   lays the source crate out below target/fault with every file that is at hand as it was published. $1 is a part of its version, which
# tells it from the one below target/oracle.
lay() {
    rm -rf target/fault/new
    mkdir -p target/fault/new
    cp -R "${ORACLE:-../shared/oracle}/../docs/src/src" target/fault/new/gen
    chmod -R u+w target/fault/new
    cp target/oracle/gen/slice.rs target/fault/new/gen/
    sed "s/^version = .*/version = \"1.6.1-$1\"/; s|path = \"str_indices\"|path = \"../../oracle/str_indices\"|" target/oracle/Cargo.toml \
        >target/fault/new/Cargo.toml
}

# Puts it in place only if it changed: cargo would build it again.
place() {
    if diff -rq target/fault/new "target/fault/$1" >/dev/null 2>&1; then
        rm -rf target/fault/new
    else
        rm -rf "target/fault/$1"
        mv target/fault/new "target/fault/$1"
    fi
}

lay published
place published

# The same, but for the place where the line feed is put in: behind the char that the way down was for, and not at the end of that char's leaf.
lay mended
sed -i '/Insert the LF to the left/,$ { s/|_, cur_info, leaf_text|/|idx, cur_info, leaf_text|/
s/let byte_idx = leaf_text.len();/let byte_idx = char_to_byte_idx(leaf_text, idx + 1);/ }' target/fault/new/gen/rope.rs
[ "$(diff target/fault/published/gen/rope.rs target/fault/new/gen/rope.rs | grep -c '^>')" -eq 2 ] || {
    echo "fault: rope.rs has not the two lines that are to be mended" >&2
    exit 1
}
place mended

# The source crate's warnings go to the log; they are not ours to mend.
CARGO_TARGET_DIR=target/fault cargo build --quiet --offline --config target/oracle/.cargo/config.toml --manifest-path tests/fault/Cargo.toml \
    2>target/fault.log || {
    cat target/fault.log >&2
    exit 1
}
exec target/fault/debug/fault
