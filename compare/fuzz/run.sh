#!/usr/bin/env bash
# Builds the fuzz target and runs it for some seconds: run.sh [SECONDS [WORDS..]]. The words go to the fuzzer.
set -eu
folder=${ADTG_ARCHIVE_DIR:-$(dirname "$0")/../../target/staticlib}
archive=$(cd "$folder" && pwd)/libadtg_c.a
cd "$(dirname "$0")/.."
seconds=${1:-60}
shift $(($# > 0 ? 1 : 0))
folder=target/fuzz
mkdir -p "$folder/found"
${CC:-clang} -std=gnu11 -O2 -g -Wall -Wextra -Werror -fsanitize=fuzzer -I../include ${CFLAGS:-} fuzz/fuzz.c "$archive" \
    -o "$folder/fuzz"
fuzz/corpus.py vectors "$folder/vectors"
"$folder/fuzz" -max_len=4096 -timeout=10 -max_total_time="$seconds" -artifact_prefix="$folder/" "$@" \
    "$folder/found" "$folder/vectors"
