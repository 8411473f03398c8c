#!/usr/bin/env bash
# Measures how long the first copy of tables takes: bench/run copying [OPTION]..
#
#   --program PATH     the program to run (default: crates/pgsub/out/pgsub)
#   --folder PATH      a folder on the disk that is measured, for servers, files and stores (default: a temporary one)
#   --server N         PostgreSQL's major version (default: the newest that is there)
#   --root PATH        the root folder in which the servers run by chroot (default: none)
#   --rows N           how many rows each table has (default: 500000)
#   --tables N         how many tables there are (default: 4)
#   --shape NAME       rising: a key that rises, and three texts; random: keys that don't; wide: fifty columns (default: rising)
#   --turns N          how often each takes them (default: 3)
#
# In turn: COPY of each table to a file, pg_dump, the tables' synchronisation of a PostgreSQL subscription, and the first copy of
# `pgsub-connect follow --create`, all on one disk with fsync on; copying.py tells what is timed. It fails where rows differ. Needs
# PostgreSQL's server, and Debian's python3-psycopg.
source "$(dirname "$0")/../common.sh"
PYTHONPATH="$top/bench:$top/tools" /usr/bin/python3 "$here/copying.py" "$@"
