#!/usr/bin/env bash
# Measures `pgsub apply` beside a subscriber by hand in C over libsqlite3 (baseline.c): bench/run subscriber [OPTION]..
#
#   --program PATH  the program to run (default: crates/pgsub/out/pgsub)
#   --changes N..   the sizes of the sessions in changes (default: 50000 200000)
#   --turns N       how often each runs (default: 3)
#
# Seven kinds of sessions, each by both in turn: seconds of a processor of the quickest run, and the most memory. It fails where the
# outputs differ. Needs gcc, SQLite's header and library, and /usr/bin/time.
source "$(dirname "$0")/../common.sh"
build_baseline
python3 "$here/measure.py" "$work/baseline" "$work" "$@"
