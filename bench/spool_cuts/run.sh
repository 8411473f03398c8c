#!/usr/bin/env bash
# Measures rollbacks of subtransactions in a spool, in microseconds: bench/run spool_cuts
source "$(dirname "$0")/../common.sh"
build spool_cuts pglsn pgtuple pglogical pgspool
"$program"
