#!/usr/bin/env bash
# Measures commits of the store over its disks in memory, beside the SQL statements alone: bench/run store [CHANGES]..
#
# The quickest and the middle one of five runs, in nanoseconds of processor time a change, of so many changes (default: 1000 10000 100000).
source "$(dirname "$0")/../common.sh"
[ $# -gt 0 ] || set -- 1000 10000 100000
build storing pglsn pgtuple pglogical pgrel pgapply pgledger pgmemory pgopening pgtables pgrows pgverify pgencoded pgchanging pgreshaping pgdumping pgadopt pgstore sqlite
for _ in 1 2 3 4 5; do
    "$program" "$@" >> "$work/times"
done
cut -d: -f1 "$work/times" | awk '!seen[$0]++' | while read -r what; do
    grep "^$what: " "$work/times" | awk '{ print $NF }' > "$work/each"
    echo "$what: quickest $(sort -n "$work/each" | head -n 1), middle $(median < "$work/each")"
done
