#!/usr/bin/env bash
# Counts the instructions of `pgsub apply --store` for a change, without and with `--feed`, of `pgsub follow`, of that with `--spool`,
# with `--watch tell` and with `--repeats` too, and of `pgsub dump` for a row: bench/run instructions [--program PATH]
#
# They don't vary with what else the machine does. What 12,000 changes take beyond 2,000 is divided by their difference: start and end
# are left out. Each `apply` prints the rows at its end, as `dump` does, and `follow` doesn't. PATH is the program (default:
# crates/pgsub/out/pgsub). Needs valgrind.
source "$(dirname "$0")/../common.sh"
program="$top/crates/pgsub/out/pgsub"
[ "${1-}" != --program ] || program="${2:?a path}"
[ -x "$program" ] || { echo "instructions: there is no program $program" >&2; exit 1; }
command -v valgrind > /dev/null || { echo "instructions: valgrind is needed" >&2; exit 1; }

# count COMMAND..: the instructions that it takes; nothing where it fails, or doesn't print the rows to their end
count() {
    valgrind --tool=cachegrind --cache-sim=no --cachegrind-out-file=/dev/null "$@" 2> "$work/told" > "$work/rows" || return 0
    if [ "$2" = follow ] || tail -n 1 "$work/rows" | grep -q '^position '; then
        awk '/ refs:/ { gsub(",", ""); print $NF }' "$work/told"
    fi
}

# counts KIND EACH CHANGES: the instructions of `apply`, of that with a feed, of `follow`, of that with a spool, with a watch, and where
# commits are noted too, and of `dump` on a session
counts() {
    local at="$work/$1.$2.$3" apply=("$program" apply --raw) follow=("$program" follow)
    python3 "$top/bench/subscriber/generate.py" "$1" "$work/session" --changes "$3" --each "$2"
    echo "$(count "${apply[@]}" --store "$at.db" "$work/session")" \
        "$(count "${apply[@]}" --store "$at.fed.db" --feed "$at.feed" "$work/session")" \
        "$(count "${follow[@]}" --store "$at.live.db" < "$work/session")" \
        "$(count "${follow[@]}" --store "$at.spooled.db" --spool "$at.spool" < "$work/session")" \
        "$(count "${follow[@]}" --store "$at.watched.db" --watch tell < "$work/session")" \
        "$(count "${follow[@]}" --store "$at.noted.db" --watch tell --repeats "$at.repeats" < "$work/session")" \
        "$(count "$program" dump --store "$at.db")"
    rm -rf "$at.feed"
}

echo "| Session | apply, a change | with a feed | follow, a change | with --spool | with --watch | and --repeats | dump, a row |"
echo "|---|---|---|---|---|---|---|---|"
# (the kind, how many a transaction)
for session in "inserts 1" "inserts 10" "inserts 100" "inserts 1000" "updates 100"; do
    read -r kind each <<< "$session"
    echo "$(counts "$kind" "$each" 2000) $(counts "$kind" "$each" 12000)" | awk -v kind="$kind" -v each="$each" '
        NF == 14 {
            printf "| %s, %d a transaction | %d | %d | %d | %d | %d | %d | %d |\n", kind, each, ($8 - $1) / 10000, ($9 - $2) / 10000,
                ($10 - $3) / 10000, ($11 - $4) / 10000, ($12 - $5) / 10000, ($13 - $6) / 10000,
                ($14 - $7) / (kind == "updates" ? 2500 : 10000)
        }
        NF != 14 { print "instructions: a run failed" > "/dev/stderr"; exit 1 }'
done
