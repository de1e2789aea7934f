#!/usr/bin/env bash
# Builds the C programs against the archive and runs them. Each prints what its file NAME.expected has, and three examples one after the
# other print what the file `expected` has. The README shows what capture.c prints, and docs/FORMAT.md has a program and what it prints.
# Both headers serve C99, C11 and C++. No call takes more stack than adtg.h says, and the archive has no data that a call could write.
#
# The archive is that of target/staticlib, or of the folder that ADTG_ARCHIVE_DIR names.
set -euo pipefail
cd "$(dirname "$0")"
archive=${ADTG_ARCHIVE_DIR:-../target/staticlib}/libadtg_c.a
folder=../target/c
orders=$folder/orders
flags=(-O1 -Wall -Wextra -Wpedantic -Werror -I../include)
programs=0
languages='C99 and C11'

wrong() {
    echo "c/run.sh: $1" >&2
    exit 1
}

build() { # NAME [WORDS...]
    ${CC:-cc} -std=c11 "${flags[@]}" "$1.c" "$archive" -o "$folder/$1" "${@:2}" || wrong "$1.c does not compile"
    : >"$folder/$1.printed"
    programs=$((programs + 1))
}

run() { # NAME [WORDS...]
    "$folder/$1" "${@:2}" >>"$folder/$1.printed" || { cat "$folder/$1.printed" >&2; wrong "$1.c failed"; }
}

compare() { # NAME
    diff -u "$1.expected" "$folder/$1.printed" || wrong "$1.c does not print what c/$1.expected has"
}

# Each header alone, and then the program that uses both.
headers() { # LANGUAGE COMPILER...
    local name=$1
    shift
    for header in adtg adtg_text; do
        echo "#include \"$header.h\"" | "$@" "${flags[@]}" -fsyntax-only - || wrong "$header.h does not compile as $name"
    done
    "$@" "${flags[@]}" headers.c -x none "$archive" -o "$folder/headers" || wrong "headers.c does not compile as $name"
    "$folder/headers" >&2 || wrong "headers.c failed as $name"
}

[ -f "$archive" ] || wrong "there is no archive $archive: tools/prove.sh --archive builds it"
rm -rf "$orders"
mkdir -p "$orders"

for name in example pages capture arrival texts; do
    build "$name"
    run "$name"
done
cat "$folder/example.printed" "$folder/capture.printed" "$folder/arrival.printed" >"$folder/printed"
diff -u expected "$folder/printed" || wrong "the examples do not print what c/expected has"
for name in pages capture arrival texts; do
    compare "$name"
done
while IFS= read -r line; do
    grep -qxF "    $line" ../README.md || wrong "the README lacks what capture.c prints: $line"
done <"$folder/capture.printed"

# The first program of the format's page, which shows what it prints.
sed '1,/^## 8/d' ../docs/FORMAT.md | sed -n '/^```c$/,/^```$/p' | sed '1d;$d' >"$folder/first.c"
sed '1,/^It prints$/d' ../docs/FORMAT.md | sed -n 's/^    //p' >"$folder/first.expected"
[ -s "$folder/first.expected" ] || wrong "docs/FORMAT.md does not say what its first program prints"
${CC:-cc} -std=c11 "${flags[@]}" "$folder/first.c" "$archive" -o "$folder/first" || wrong "the program of docs/FORMAT.md does not compile"
programs=$((programs + 1))
"$folder/first" | diff -u "$folder/first.expected" - || wrong "the program of docs/FORMAT.md does not print what it says"

# No plan is kept; the plan is kept; the plan of another schema is kept, twice; no plan but something else is kept.
build column
run column "$orders"
run column "$orders"
run column "$orders" before
run column "$orders"
echo 'no plan' >"$orders/orders.plan"
run column "$orders"
compare column

headers C99 ${CC:-cc} -std=c99 -x c
headers C11 ${CC:-cc} -std=c11 -x c
if command -v ${CXX:-c++} >/dev/null; then
    headers C++ ${CXX:-c++} -std=c++17 -x c++
    languages='C99, C11 and C++'
fi
programs=$((programs + 1))

# The C library is bound at the start, so that no measure has the binding in it.
build stack -pthread -Wl,-z,now
run stack ../include/adtg.h
diff -u <(nm -g --defined-only "$archive" | sed -n 's/.* T //p' | sort) <(cut -d ' ' -f 1 "$folder/stack.printed" | sort) ||
    wrong "stack.c does not measure the calls that there are"
if nm --defined-only "$archive" | grep -E ' [bBcCdDgGsS] '; then
    wrong "the archive has data that a call could write"
fi

echo "c/run.sh: $programs programs, $(wc -l <"$folder/stack.printed") calls, headers as $languages: passed"
