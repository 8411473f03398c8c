#!/usr/bin/env bash
# Measures commits that wait for a follower, beside PostgreSQL's subscription: bench/run waiting [OPTION]..
#
#   --program PATH   the program to run (default: crates/pgsub/out/pgsub)
#   --folder PATH    a folder on the disk that is measured, for servers and stores (default: a temporary one)
#   --server N       PostgreSQL's major version (default: the newest that is there)
#   --root PATH      the root folder in which the servers run by chroot (default: none)
#   --commits N      how many commits wait in each turn (default: 2000)
#   --turns N        how often each follower is waited for (default: 3)
#   --level LEVEL    the commits' synchronous_commit: on (the default), or remote_apply
#   --proto N        the version of the protocol of pgsub (default: 2)
#
# A commit of one row at a PostgreSQL server waits for nobody, for a subscription with synchronous_commit = on, and for `pgsub-connect
# follow`, in turn, all on one disk with fsync on. It fails where rows differ. Needs PostgreSQL's server, and Debian's python3-psycopg.
source "$(dirname "$0")/../common.sh"
PYTHONPATH="$top/bench:$top/tools" /usr/bin/python3 "$here/waiting.py" "$@"
