#!/usr/bin/env bash
# Proves crates and says little. All that rt prints goes to target/prove.log.
#
#     tools/prove.sh              every crate
#     tools/prove.sh NAME...      these crates and what they depend on
#     tools/prove.sh --archive    the archive for C and Rust, target/staticlib/libadtg_c.a
#
# A program that is proved is also built and run, and put into target/bin. On a terminal one line shows how far the prover is. The last
# line says how many crates are proved. Where one is not, the errors are printed. The exit status is that of rt.
set -u
cd "$(dirname "$0")/.." || exit 2
root=$(pwd -P)
log=target/prove.log
most=40 # lines of errors that are printed
# The lines of errors: those of the prover and the compiler, functions that are not proved, and what rt says of anything not done.
wrong='^[^ ]*: error|^error|^note: [^ ]+:[0-9]+:[0-9]+: |^fn [^ ]+: (not proved|no proof|could not tell)|^rt: '
# What rt says along the way.
right='^rt: ([A-Za-z0-9_]+: (begins with|another copy)|chose|running|nothing has changed|rt check --fix-imports)'

say() { echo "tools/prove.sh: $*" >&2; }

usage() {
    sed -n 's/^#  *\(tools.*\)/\1/p' tools/prove.sh >&2
    exit 2
}

in_words() { if [ "$1" -eq 1 ]; then echo '1 crate'; else echo "$1 crates"; fi; }

# How many crates there are to prove: the named ones and all that they depend on, or all.
count_crates() {
    WANTED="$*" awk '
        { sub(/#.*/, ""); colon = index($0, ":") }
        colon {
            split(substr($0, 1, colon - 1), head, " ") # the name, and what kind of crate it is
            name = head[1]
            deps[name] = substr($0, colon + 1)
            all = all " " name
        }
        END {
            left = ENVIRON["WANTED"] == "" ? all : ENVIRON["WANTED"]
            while ((n = split(left, names, " ")) > 0) {
                left = ""
                for (i = 1; i <= n; i++)
                    if (names[i] in deps && !(names[i] in seen)) {
                        seen[names[i]]
                        count++
                        left = left " " deps[names[i]]
                    }
            }
            print count + 0
        }' crates.txt
}

# Proves one crate and what it depends on, and builds and runs it where it is a program.
prove_crate() {
    if [ -f "crates/$1/src/main.rt" ]; then
        (cd "crates/$1" && rt run </dev/null) && mkdir -p target/bin && cp "crates/$1/out/$1" target/bin/
    else
        (cd "crates/$1" && rt check)
    fi
}

prove_all() {
    local main crate
    rt all check || return
    for main in crates/*/src/main.rt; do
        crate=${main%/src/main.rt}
        prove_crate "${crate##*/}" || return
    done
}

prove_named() {
    local name
    for name in "$@"; do
        prove_crate "$name" || return
    done
}

build_archive() {
    (cd crates/adtg_c && rt lib) && mkdir -p target/staticlib && cp crates/adtg_c/out/libadtg_c.a target/staticlib/
}

# Reads what rt prints. On a terminal one line shows how many crates are checked.
show_progress() {
    local line name
    local -A checked=()
    [ -t 1 ] || { cat >/dev/null; return; }
    printf 'checked 0 of %d' "$total"
    while IFS= read -r line; do
        [[ $line =~ ^(==|crate)\ ([a-z0-9_]+)(:\ modules\ loaded=.*)?$ ]] || continue
        name=${BASH_REMATCH[2]}
        [ "$name" != summary ] || continue
        checked[$name]=1
        printf '\r\033[Kchecked %d of %d: %s' "${#checked[@]}" "$total" "$name"
    done
    printf '\r\033[K'
}

# Prints the errors of the log, or its end where it has none. Paths start at this project, and long lines are cut.
show_errors() {
    { grep -E "$wrong" "$log" | grep -vE "$right" || tail -n "$most" "$log"; } | ROOT=$root/ MOST=$most LC_ALL=C awk '
        NR > ENVIRON["MOST"] { next }
        {
            while ((at = index($0, ENVIRON["ROOT"])) > 0)
                $0 = substr($0, 1, at - 1) substr($0, at + length(ENVIRON["ROOT"]))
            if (length($0) > 300) {
                $0 = substr($0, 1, 300)
                sub(/[\300-\377][\200-\277]*$/, "")
                $0 = $0 " ..."
            }
            print
        }
        END { if (NR > ENVIRON["MOST"]) print "and " NR - ENVIRON["MOST"] " more lines" }' >&2
}

wrote=
case ${1:-} in
    --archive)
        [ $# -eq 1 ] || usage
        what=(build_archive)
        total=$(count_crates adtg_c)
        wrote=', wrote target/staticlib/libadtg_c.a'
        ;;
    -*) usage ;;
    '')
        what=(prove_all)
        total=$(count_crates)
        ;;
    *)
        for name in "$@"; do
            [ "$(count_crates "$name")" -gt 0 ] || { say "crates.txt has no crate $name"; exit 2; }
        done
        what=(prove_named "$@")
        total=$(count_crates "$@")
        ;;
esac
command -v rt >/dev/null || { say "rt, the command of the Rattle kit, is not on the PATH"; exit 2; }

mkdir -p target || exit 2
"${what[@]}" 2>&1 | tee "$log" | show_progress
status=${PIPESTATUS[0]}
if [ "$status" -ne 0 ]; then
    show_errors
    say "failed; $log has all that rt said"
    exit "$status"
fi
echo "proved $(in_words "$total")$wrote"
