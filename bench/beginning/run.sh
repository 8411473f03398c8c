#!/usr/bin/env bash
# Measures how long a new copy takes until its rows can be asked: bench/run beginning [OPTION]..
#
#   --program PATH   the program to run (default: crates/pgsub/out/pgsub)
#   --folder PATH    a folder on the disk that is measured, for server, store, feed and tables (default: a temporary one)
#   --server N       PostgreSQL's major version (default: the newest that is there)
#   --root PATH      the root folder in which the servers run by chroot (default: none)
#   --rows N         how many rows there are, in five tables (default: 1400000)
#   --runs N         how many copies are made, one after the other (default: 3)
#   --proto N        the version of the protocol of pgsub (default: 2)
#
# `pgsub-connect follow --create --tables` copies five tables. Told is when it follows, and when a SELECT counts the rows of all five in the
# tables of SQLite, in seconds from its start. It fails where the tables have other rows than the server, or where the SELECT comes more
# than a tenth later. Needs PostgreSQL's server, and Debian's python3-psycopg.
source "$(dirname "$0")/../common.sh"
PYTHONPATH="$top/bench:$top/tools" /usr/bin/python3 "$here/beginning.py" "$@"
