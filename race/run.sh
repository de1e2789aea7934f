#!/usr/bin/env bash
# The archive against hand-written Rust of the same rules: the same files, in one process, call by call in turn.
# After `tools/prove.sh --archive`, or with another archive as its word (race/trial.py makes one of sources that are not proved).
# On an idle machine; noise moves a ratio by some 5 percent.
set -eu
archive=${1:+$(realpath "$1")}
cd "$(dirname "$0")/.."
work=target/race
archive=${archive:-target/staticlib/libadtg_c.a}
mkdir -p "$work"
cargo build --quiet --release --offline --locked --manifest-path race/Cargo.toml --target-dir "$work/cargo"
[ -d "$work/workloads" ] || "$work/cargo/release/workloads" "$work/workloads" >/dev/null
cc -O3 -shared -fPIC -Iinclude race/shim.c "$archive" -o "$work/libours.so"
exec "$work/cargo/release/race" "./$work/libours.so" "./$work/cargo/release/libanchor.so" --dir "$work/workloads"
