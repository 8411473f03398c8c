#!/usr/bin/env bash
# Measures `pgsub apply --store` beside a subscriber in C and PostgreSQL's own: bench/run replica [OPTION]..
#
#   --program PATH  the program to run (default: crates/pgsub/out/pgsub)
#   --folder PATH   a folder on the disk that is measured, for servers, stores and sessions (default: a temporary one)
#   --port N        the first of two free ports (default: 54340)
#   --turns N       how often each runs (default: 5)
#   --quick         a tenth of the changes
#   --only WORD     only sessions whose name has this word
#
# The same changes, made in a PostgreSQL server, are applied on the same disk, in turn, by the program, by the baseline over a database in
# a file, and by the apply worker of a second server; measure.py tells what is timed. It fails where rows differ. Needs PostgreSQL's
# server, Debian's python3-psycopg, strace, gcc, and SQLite's header and library.
source "$(dirname "$0")/../common.sh"
build_baseline
/usr/bin/python3 "$here/measure.py" "$work/baseline" "$@"
