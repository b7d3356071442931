#!/bin/sh
# edits.sh [CRATE...]   tries every must-fail edit of the crates named, or of all: those of the gate, and those that lie in must-fail-more beside them.
#   Each is refused, or the run fails; so it does where an edit cannot be applied or read, and where it only makes a proof file unfit for the code, which
#   shows nothing.
# It proves what is not proved yet, begins with what rt check kept, and tries again only what changed: what an edit came to is kept on this machine.
set -eu
cd "$(dirname "$0")/.."
mkdir -p target

# In a copy, where those beside must-fail lie in it: rt tries no others.
copy=$(mktemp -d)
trap 'rm -rf "$copy"' EXIT
trap 'exit 1' HUP INT TERM
cp crates.txt "$copy/"
[ ! -f HANDLES ] || cp HANDLES "$copy/"
for crate in crates/*/; do
    mkdir -p "$copy/$crate"
    for part in src specs proofs must-fail; do [ ! -d "$crate$part" ] || cp -R "$crate$part" "$copy/$crate"; done
    [ -d "${crate}must-fail-more" ] || continue
    mkdir -p "$copy/${crate}must-fail"
    for edit in "${crate}must-fail-more"/*.edit; do
        [ ! -e "$copy/${crate}must-fail/$(basename "$edit")" ] || { echo "edits: two edits have one name: $edit"; exit 1; }
        cp "$edit" "$copy/${crate}must-fail/"
    done
done

[ $# -gt 0 ] || set -- $(cd "$copy/crates" && for folder in */must-fail; do dirname "$folder"; done)
# Here, so that the copy takes the libraries from here.
for crate in "$@"; do
    (cd "crates/$crate" && rt check) >target/edits.log 2>&1 || { cat target/edits.log; exit 1; }
done
count=0
for crate in "$@"; do
    for edit in "$copy/crates/$crate"/must-fail/*.edit; do [ ! -f "$edit" ] || count=$((count + 1)); done
done
status=0
(cd "$copy" && rt must-fail "$@") >target/edits.log 2>&1 || status=$?
sed -n 's/^rt: must-fail /edits: /p' target/edits.log | cut -c 1-200 >target/edits.said
refused=$(grep -c ': refused, as it must be' target/edits.said) || true
unfit=$(grep -c ': refused, as it must be (only because a proof file' target/edits.said) || true
if [ "$status" -ne 0 ] || [ "$refused" -ne "$count" ] || [ "$unfit" -ne 0 ]; then
    grep -v -e ': refused, as it must be:' -e ': refused, as it must be$' target/edits.said || cat target/edits.log
    echo "edits: $((refused - unfit)) of $count refused at a false fact"
    exit 1
fi
echo "edits: $count refused, each at a false fact"
