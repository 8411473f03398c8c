#!/usr/bin/env bash
# Measures the tables of a follower, from a server's commit to a SELECT: bench/run selecting [OPTION]..
#
#   --program PATH   the program to run (default: crates/pgsub/out/pgsub)
#   --folder PATH    a folder on the disk that is measured, for server, store, feed and tables (default: a temporary one)
#   --server N       PostgreSQL's major version (default: the newest that is there)
#   --root PATH      the root folder in which the servers run by chroot (default: none)
#   --seconds N      how long pgbench runs each time (default: 30)
#   --proto N        the version of the protocol of pgsub (default: 2)
#
# `pgsub-connect follow` keeps a store, and then another one with a feed and tables. Told is how far they are behind while pgbench runs at
# its full rate at the same machine, and how long it takes from a commit until a SELECT sees it while nothing else runs. It fails where rows
# differ. Needs PostgreSQL's server with pgbench, and Debian's python3-psycopg.
source "$(dirname "$0")/../common.sh"
PYTHONPATH="$top/bench:$top/tools" /usr/bin/python3 "$here/selecting.py" "$@"
