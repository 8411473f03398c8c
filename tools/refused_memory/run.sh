#!/usr/bin/env bash
# Runs the tests of crates, and the stored run of a program, with each request for memory refused in turn.
#
#   tools/refused_memory/run.sh [--all] [--built] [--most N] CRATE[/WORD]..
#
#   CRATE/WORD  only the tests whose names have the word
#   --all       each test runs once with all its requests refused, and has to pass all the same; for tests of calls that take no memory,
#               as tests_parts/without_memory
#   --built     tests and program are those that an earlier run of `rt` has built; else they are proved and built first, which can take
#               minutes
#   --most N    of a test that makes more requests, N are refused: one at random of each Nth part. The seed is printed; SEED sets it
#
# Each runs once for each request that it makes, with this one refused in place of the C library's answer. A line for each tells its
# requests, and how often it passed all the same, stopped, and crashed. A test stops with its own error or assertion. A program passes
# with what is stored, and stops where it says that memory has run out, or that its store refused, as a disk in memory does that can't
# grow, with status 1, and prints nothing else, or what is stored, or that no commit was taken. All else is counted as a crash. A crash
# makes the status 1, and so does a test named refused_memory_changes_nothing that doesn't pass each time. Needs gcc. RT names the
# toolchain, if not rt.
set -eu
case "${1-}" in
    -h | --help) sed -n '2,/^[^#]/ s/^# \{0,1\}//p' "$0"; exit ;;
    "") echo "run.sh: name the crates: see --help" >&2; exit 2 ;;
esac
here="$(cd "$(dirname "$0")" && pwd)"
top="$(cd "$here/../.." && pwd)"
work="$(mktemp -d)"
trap 'rm -r "$work"' EXIT
gcc -O1 -fno-builtin -shared -fPIC -o "$work/refuse.so" "$here/refuse.c"
ulimit -c 0
bad=0
every=
built=
most=
while [[ "${1:-}" = --* ]]; do
    case "$1" in
        --all) every=yes ;;
        --built) built=yes ;;
        --most)
            most="${2-}"
            [[ "$most" =~ ^[1-9][0-9]{0,8}$ ]] || { echo "run.sh: --most needs a number" >&2; exit 2; }
            shift ;;
        *) echo "run.sh: there is no option $1" >&2; exit 2 ;;
    esac
    shift
done

# run_refusing N COMMAND..: the command with request N refused, none for 0, all for -1
run_refusing() {
    REFUSE="$1" REFUSE_COUNT="$work/count" LD_PRELOAD="$work/refuse.so" "${@:2}" > "$work/out" 2> "$work/err"
}

# how a test ended, by its status
end_of_test() {
    if [ "$1" -eq 0 ]; then
        echo passed
    elif cat "$work/out" "$work/err" | grep -q "its result gives status\|^test stopped at"; then
        echo stopped
    else
        echo crashed
    fi
}

# nothing, all that is stored, or that no commit was taken
prints_what_stands() {
    [ ! -s "$work/out" ] || cmp -s "$work/out" "$stored" || [ "$(cat "$work/out")" = "position 0/0" ]
}

# how a program's stored run ended, by its status
end_of_program() {
    if [ "$1" -eq "$wanted" ] && cmp -s "$work/out" "$stored"; then
        echo passed
    elif [ "$1" -eq 1 ] && grep -qi 'memory\|^pgsub: store [0-9]\{1,20\} Refused$' "$work/err" && prints_what_stands; then
        echo stopped
    else
        echo crashed
    fi
}

# refuse_each NAME END COMMAND..: END says how a run of the command ended
refuse_each() {
    local name="$1" end="$2" all tries at n status ended passed=0 stopped=0 crashed=0
    shift 2
    run_refusing 0 "$@" || { cat "$work/out" "$work/err"; return 1; }
    all="$(cat "$work/count")"
    tries="$all"
    [ -z "$most" ] || [ "$all" -le "$most" ] || tries="$most"
    for ((at = 0; at < tries; at++)); do
        n=$((at * all / tries))
        n=$((n + 1 + (RANDOM << 15 | RANDOM) % ((at + 1) * all / tries - n)))
        status=0
        run_refusing "$n" "$@" 2> "$work/shell" || status=$?
        ended="$("$end" "$status")"
        case "$ended" in
            passed) passed=$((passed + 1)) ;;
            stopped) stopped=$((stopped + 1)) ;;
            *)
                crashed=$((crashed + 1))
                echo "$name: status $status with request $n refused"
                cat "$work/out" "$work/err"
                ;;
        esac
    done
    [ "$tries" -eq "$all" ] || all="$tries of $all"
    echo "$name: $all requests, $passed passed, $stopped stopped, $crashed crashed"
    [ "$crashed" -eq 0 ] || bad=1
    case "$name" in *refused_memory_changes_nothing) [ "$passed" -eq "$tries" ] || bad=1 ;; esac
}

# refuse_all NAME COMMAND..: the command with all its requests refused
refuse_all() {
    if run_refusing -1 "${@:2}" 2> "$work/shell"; then
        echo "$1: $(cat "$work/count") requests, all refused, and passed"
    else
        echo "$1: didn't pass with all requests refused"
        cat "$work/out" "$work/err"
        bad=1
    fi
}

# refuse_tests CRATE WORD
refuse_tests() {
    local program="$top/crates/$1/out/${1}_tests" name
    if [ -n "$built" ] && [ ! -x "$program" ] && [ -f "$top/crates/$1/args" ]; then
        # (a program that has no tests)
        return
    fi
    if [ -z "$built" ] || [ ! -x "$program" ]; then
        (cd "$top/crates/$1" && "${RT:-rt}" test) > "$work/log" 2>&1 || { tail "$work/log"; exit 1; }
    fi
    for name in $("$program" --list | sed -n 's/: test$//p' | grep -F -- "$2"); do
        if [ -n "$every" ]; then
            refuse_all "$1 $name" "$program" "$name"
        else
            refuse_each "$1 $name" end_of_test "$program" "$name"
        fi
    done
}

# refuse_program CRATE: its stored run, in a copy of its data
refuse_program() {
    local folder="$top/crates/$1" words=()
    mapfile -t words < "$folder/args"
    stored="$folder/stdout"
    wanted="$(cat "$folder/status" 2> "$work/shell" || echo 0)"
    if [ -z "$built" ] || [ ! -x "$folder/out/$1" ]; then
        # here it finds no file, but it is built
        rm -f "$folder/out/$1"
        (cd "$folder" && "${RT:-rt}" run -- "${words[@]}") > "$work/log" 2>&1 || [ -x "$folder/out/$1" ] || { tail "$work/log"; exit 1; }
    fi
    cd "$folder/data"
    refuse_each "$1 ${words[*]}" end_of_program "$folder/out/$1" "${words[@]}"
}

[ -z "$most" ] || RANDOM="${SEED:=$RANDOM}"
[ -z "$most" ] || echo "SEED=$SEED"
for words in "$@"; do
    crate="${words%%/*}"
    word="${words#"$crate"}"
    refuse_tests "$crate" "${word#/}"
    [ "$words" != "$crate" ] || [ ! -f "$top/crates/$crate/args" ] || refuse_program "$crate"
done
exit "$bad"
