#!/bin/sh
# oracle.sh   lays the source crate out below target/oracle. Where it is not at hand, it says why and fails.
# ORACLE=FOLDER  the folder that holds prepare.sh (default: ../shared/oracle beside the repository)
set -eu
root=$(cd "$(dirname "$0")/.." && pwd)
oracle=${ORACLE:-$root/../shared/oracle}

[ -f "$oracle/prepare.sh" ] || {
    echo "as the source crate is not at ../shared/oracle or \$ORACLE"
    exit 1
}
if ! dpkg -L librust-smallvec-dev >/dev/null 2>&1; then
    (timeout 120 apt-get update && timeout 300 apt-get install -y librust-smallvec-dev) >/dev/null 2>&1 || {
        echo "as librust-smallvec-dev cannot be installed"
        exit 1
    }
fi
oracle=$(cd "$oracle" && pwd)

cd "$root"
mkdir -p target

# Laid out anew each time, but put in place only if it changed: cargo would build it again.
bash "$oracle/prepare.sh" target/oracle.new >target/oracle.log
# The oracle's probe.rs opens lists of leaves alone: one more module opens the source's child lists with children of both kinds.
mkdir target/oracle.new/gen/probe
cp tests/compare/probe/lists.rs target/oracle.new/gen/probe/
echo 'pub mod lists;' >>target/oracle.new/gen/probe.rs
if diff -rq -x EDITS.diff target/oracle.new target/oracle >/dev/null 2>&1; then
    rm -rf target/oracle.new
else
    rm -rf target/oracle
    mv target/oracle.new target/oracle
fi
