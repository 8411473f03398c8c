#!/usr/bin/env bash
# Measures a row that is carried over to another shape: bench/run carrying [COLUMNS]..
#
# Microseconds of processor time: of a row by columns that were looked up once, and of a row whose columns are looked up for it alone;
# with so many columns (default: 4 100 1600).
source "$(dirname "$0")/../common.sh"
[ $# -gt 0 ] || set -- 4 100 1600
build carried pglsn pgtuple pglogical pgrel
"$program" "$@"
