#!/usr/bin/env bash
# Measures how fast a backlog is followed, beside PostgreSQL's subscriptions: bench/run backlog [OPTION]..
#
#   --program PATH     the program to run (default: crates/pgsub/out/pgsub)
#   --folder PATH      a folder on the disk that is measured, for servers and stores (default: a temporary one)
#   --server N         PostgreSQL's major version (default: the newest that is there)
#   --root PATH        the root folder in which the servers run by chroot (default: none)
#   --transactions N   how many transactions the backlog has (default: 20000)
#   --turns N          how often each follower takes it (default: 3)
#   --scale N          pgbench's scale, 100000 accounts each (default: 1)
#   --inserts SIZE     inserts of SIZE rows a transaction in place of pgbench's script
#
# A backlog of pgbench's own script at a PostgreSQL server is followed from slots made before it, in turn, by a subscription as by default
# (synchronous_commit = off), by one with synchronous_commit = on, and by `pgsub-connect follow` in versions 1 and 2 of the protocol, all
# on one disk with fsync on; backlog.py tells what is timed. It fails where rows differ. Needs PostgreSQL's server with pgbench, and
# Debian's python3-psycopg.
source "$(dirname "$0")/../common.sh"
PYTHONPATH="$top/bench:$top/tools" /usr/bin/python3 "$here/backlog.py" "$@"
