#!/bin/sh
# library.sh   writes target/staticlib/libwolamivens.a, every call of a note for C and Rust on x86-64 to link, proved first.
set -eu
cd "$(dirname "$0")/.."
UNPROVED=''
. tests/build.sh
archive note_c edits_c
join "$archives"
echo "target/staticlib/libwolamivens.a has every call of a note"
