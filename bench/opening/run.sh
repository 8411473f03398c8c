#!/usr/bin/env bash
# Measures what opening a store in a file takes, with ten commits and all rows read: bench/run opening [ROWS]..
#
# Seconds and the peak of memory, with 2,000 pages of the file in memory, of stores of so many rows (default: 10000 100000 1000000).
source "$(dirname "$0")/../common.sh"
[ $# -gt 0 ] || set -- 10000 100000 1000000
build opening pglsn pgtuple pglogical pgrel pgapply pgledger pgmemory pgopening pgtables pgrows pgverify pgencoded pgchanging pgreshaping pgdumping pgadopt pgstore sqlite sqlite_disk
echo "| Rows | Seconds | MB |"
echo "|---|---|---|"
for rows in "$@"; do
    "$program" "$work/$rows.db" "$rows" > /dev/null
    python3 - "$program" "$work/$rows.db" "$rows" << 'END'
import resource, subprocess, sys
program, path, rows = sys.argv[1:]
subprocess.run([program, path, "0"], check=True, stdout=subprocess.DEVNULL)
used = resource.getrusage(resource.RUSAGE_CHILDREN)
print(f"| {int(rows):,} | {used.ru_utime + used.ru_stime:.1f} | {used.ru_maxrss / 1024:.0f} |")
END
    rm "$work/$rows.db"*
done
