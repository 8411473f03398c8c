#!/usr/bin/env bash
# Measures the reading of all rows of a store on disks in memory: bench/run rows [ROWS]..
#
# ROWS are whole thousands (default: 1000 10000 100000). Prints the milliseconds of processor time, the quickest of five runs, and the
# most kilobytes that the program held, with the rows read and without. Needs /usr/bin/time.
source "$(dirname "$0")/../common.sh"
[ $# -gt 0 ] || set -- 1000 10000 100000
build reading pglsn pgtuple pglogical pgrel pgapply pgledger pgmemory pgopening pgtables pgrows pgverify pgencoded pgchanging pgreshaping pgdumping pgadopt pgstore sqlite
for n in "$@"; do
    for _ in 1 2 3 4 5; do
        /usr/bin/time -o "$work/most" -f %M "$program" rows "$n" | awk '{ print $NF }'
    done | sort -n | head -n 1 > "$work/time"
    /usr/bin/time -o "$work/none" -f %M "$program" none "$n"
    echo "$n rows: $(cat "$work/time") ms, $(cat "$work/most") kB, without reading $(cat "$work/none") kB"
done
