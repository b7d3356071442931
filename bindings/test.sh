#!/bin/sh
# test.sh   builds the library for this processor, and calls it from C and from Rust: every call, each refusal, and the example.
# UNPROVED=yes  builds it with nothing proved
set -eu
cd "$(dirname "$0")/.."
. tests/build.sh

command -v gcc >/dev/null || skip "as gcc is not there to link the library"
archive note_c edits_c
join "$archives"
library=$PWD/$archives/libwolamivens.a

# The header declares every function that the library has.
for name in $(nm -g --defined-only "$library" | sed -n 's/.* T //p'); do
    grep -q " $name(" bindings/c/wolamivens.h || {
        echo "test: wolamivens.h does not declare $name" >&2
        exit 1
    }
done

# The library asks for memcpy and memset and nothing else.
for name in $(nm -u "$library" | sed -n 's/^ *[Uw] //p' | sort -u); do
    case $name in
    memcpy | memset) ;;
    *)
        echo "test: the library asks for $name" >&2
        exit 1
        ;;
    esac
done

mkdir -p target/bindings
gcc -std=c99 -pedantic -Wall -Wextra -Werror -O2 bindings/c/test.c "$library" -o target/bindings/c_test
target/bindings/c_test

command -v cargo >/dev/null || skip "the part in Rust, as cargo is not there"
export CARGO_TARGET_DIR=target/bindings WOLAMIVENS_DIR="${library%/*}"
set -- --quiet --offline --manifest-path bindings/rust/Cargo.toml
cargo test "$@"
cargo run "$@" --example case >target/bindings/case.out
diff bindings/rust/examples/case.out target/bindings/case.out
echo "rust: the tests hold, and the example prints what is due"
