#!/usr/bin/env bash
# Proves and tests everything. The last line is rt's own tally, printed only where all before it passed.
set -u
cd "$(dirname "$0")" || exit 2
# What is tested is what is built here, and no other build.
unset ADTG_ARCHIVE_DIR ADTG_BIN_DIR CARGO_TARGET_DIR
log=$(mktemp) || exit 2
trap 'rm -f "$log"' EXIT

step() {
    echo "== $*"
    "$@" || { echo "test.sh: failed: $*"; exit 1; }
}

if [ "$(rt version)" != "$(cat KIT)" ]; then
    echo "test.sh: the kit here is '$(rt version)', and the project was proved with '$(cat KIT)'"
fi

step python3 tools/check_docs.py

# Every proof, every wrong program, every program run. rt says 'ok' and counts the wrong programs in one line; its last line is the tally.
echo "== rt ci"
rt ci >"$log" 2>&1
status=$?
grep -E '^rt: |passed, ' "$log"
if [ "$status" -ne 0 ]; then
    grep -E 'error|NOT|FAILED' "$log" | head -n 60
    exit 1
fi
if ! grep -q '^rt: ok' "$log"; then
    echo "test.sh: rt ci did not say that all is well"
    exit 1
fi
if grep -qE '^rt: ok.*, [0-9]+ bad' "$log"; then
    echo "test.sh: some wrong programs could not be tried, and show nothing"
    exit 1
fi
tally=$(tail -n 1 "$log")
if ! [[ $tally =~ ^[1-9][0-9]*\ passed,\ 0\ failed$ ]]; then
    echo "test.sh: rt ci did not end in a tally of what it passed: $tally"
    exit 1
fi

# The listing program as rt ci has just built and run it, and the archive.
step mkdir -p target/bin
step cp crates/listing/out/listing target/bin/listing
step tools/prove.sh --archive
step c/run.sh
step cargo test --quiet --release --offline --locked --manifest-path rust/Cargo.toml
step cargo build --quiet --release --offline --locked --manifest-path compare/Cargo.toml
step compare/target/release/compare vectors compare/vectors
step compare/target/release/compare random --seed 1 --seconds 20
step cargo test --quiet --release --offline --locked --manifest-path compare/Cargo.toml

echo "$tally"
